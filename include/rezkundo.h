/* Rezkundo's C interface: librezkundo.a, built by `tools/build rezkundo`. C99 and C++.
 *
 * Buffers. Every pointer must be valid for its length, and no two buffers may overlap. A buffer of length 0 is neither
 * read nor written, so its pointer may be null: null text is a file of no bytes (2, as a claim 14), null acts a list of no
 * acts, null output or work a buffer that is too short (11), a null answer, chart or claim a file of no bytes
 * (12, 17, 14).
 *
 * Calls. Each call returns, for all contents of the buffers. The library takes no memory of its own and keeps nothing
 * between calls, so calls may run side by side on different buffers; what is only read may be shared. A call takes less
 * than REZKUNDO_STACK bytes of the caller's stack, but to build a case REZKUNDO_STACK_CASE, and to list steps
 * REZKUNDO_STACK_STEPS.
 *
 * Linking. The archive has one object, for x86-64 Linux by the System V calling convention. It is position independent,
 * and of all other code it needs only memset and memcpy.
 */
#ifndef REZKUNDO_H
#define REZKUNDO_H

#include <stddef.h>
#include <stdint.h>

#ifdef __cplusplus
extern "C" {
#endif

/* The version that this header goes with, 1.6.0: major x 10,000 + minor x 100 + patch. */
#define REZKUNDO_VERSION 10600

/* The version of the linked library. If it is not REZKUNDO_VERSION, header and library do not belong together. */
uint32_t rezkundo_version(void);

/* The longest file in bytes; the least output in bytes and the least work buffer in cells, which suffice for every case;
 * and the stack, rounded up from what tests/library measures. */
#define REZKUNDO_LONGEST_FILE 65536
#define REZKUNDO_LEAST_OUTPUT 8192
#define REZKUNDO_LEAST_WORK 16384
#define REZKUNDO_STACK 32768

/* A claim's most states and its longest text in bytes. */
#define REZKUNDO_MOST_STATES 15
#define REZKUNDO_LONGEST_CLAIM 16384

/* A chart's most modes, flags and rules, and the longest name of a mode in bytes. */
#define REZKUNDO_MOST_MODES 32
#define REZKUNDO_MOST_FLAGS 8
#define REZKUNDO_MOST_RULES 512
#define REZKUNDO_LONGEST_NAME 16

/* The least output in bytes to build a case file, and to list steps, which suffice for every chart, claim and answer; and
 * the stack of each. */
#define REZKUNDO_LEAST_CASE 65536
#define REZKUNDO_LEAST_STEPS 65536
#define REZKUNDO_STACK_CASE 65536
#define REZKUNDO_STACK_STEPS 131072

/* Verdicts. None stands with every refusal. */
enum {
    REZKUNDO_NONE = 0,
    REZKUNDO_LASSO = 1,
    REZKUNDO_EMPTY = 2
};

/* Refusals, in words in docs/REFUSALS.md; 0 is none. */
enum {
    REZKUNDO_REFUSED_TOO_LONG = 1,
    REZKUNDO_REFUSED_NOT_A_CASE = 2,
    REZKUNDO_REFUSED_OTHER_VERSION = 3,
    REZKUNDO_REFUSED_CASE_LAYOUT = 4,
    REZKUNDO_REFUSED_CASE_COUNT = 5,
    REZKUNDO_REFUSED_CASE_VERTEX = 6,
    REZKUNDO_REFUSED_CASE_EDGE = 7,
    REZKUNDO_REFUSED_CASE_EDGE_ORDER = 8,
    REZKUNDO_REFUSED_NO_SUCH_ACT = 9,
    REZKUNDO_REFUSED_UNENDED = 10,
    REZKUNDO_REFUSED_BUFFER_TOO_SHORT = 11,
    REZKUNDO_REFUSED_ANSWER_LAYOUT = 12,
    REZKUNDO_REFUSED_ANSWER_FALSE = 13,
    REZKUNDO_REFUSED_NOT_A_CLAIM = 14,
    REZKUNDO_REFUSED_CLAIM = 15,
    REZKUNDO_REFUSED_CLAIM_FEATURE = 16,
    REZKUNDO_REFUSED_CHART = 17,
    REZKUNDO_REFUSED_CHART_GAP = 18,
    REZKUNDO_REFUSED_CHART_OVERLAP = 19,
    REZKUNDO_REFUSED_COUNTS_DIFFER = 20,
    REZKUNDO_REFUSED_TOO_MANY_EDGES = 21
};

/* Of a run: refusal or 0; verdict; the acts counted; the answer's length in bytes; and three tallies of its messages:
 *
 *   sent       how often an offer was put into a message cell, also where one waited there already
 *   delivered  how often a delivery emptied a cell, also where the offer was not taken, and where it ended the run
 *   joined     how often an offer was put into a cell where one waited
 *
 * At any moment of a run, sent = delivered + joined + cells still full. An edge whose two ends have one owner has no cell
 * and is in no tally; so it is with rest loops, the edges that a run adds where none of the file leaves a vertex. Refusal 10 returns acts and tallies; every other refusal returns zeros for all but its number.
 *
 * A later library may have refusals and verdicts that this header does not name: take an unknown one for an error, never
 * for "empty". */
typedef struct {
    uint32_t refusal, verdict;
    uint64_t acts;
    uint32_t written, sent, delivered, joined;
} rezkundo_outcome;

/* Of a check: refusal or 0; the answer's verdict where it passes. */
typedef struct { uint32_t refusal, verdict; } rezkundo_checked;

/* Runs a case by a list of acts, and writes an answer of version 2. 11 if the output has under 8,192 bytes or the work buffer under 16,384 cells; then 1
 * to 8 for the case, 9 for an act out of range, 10 if the list ran out before the run ended. A refused call changes
 * neither buffer, save that 10 leaves work all zeros. After a result the answer stands at the output's front, the rest
 * of it unchanged, and work is all zeros. */
rezkundo_outcome rezkundo_run_list(const uint8_t *text, size_t text_len, const uint32_t *acts, size_t acts_len,
                                   uint8_t *output, size_t output_len, int32_t *work, size_t work_len);

/* The same by rounds, to the run's end: never 9 or 10, and joined is 0. */
rezkundo_outcome rezkundo_run_rounds(const uint8_t *text, size_t text_len, uint8_t *output, size_t output_len,
                                     int32_t *work, size_t work_len);

/* Checks an answer to a case: 1 to 8 for the case, then 1, 3, 12 or 13 for the answer, or its verdict. An answer of version 2
 * is judged with the rest loops, one of version 1 by the file's edges alone, as when it was written; another version is 3. */
rezkundo_checked rezkundo_check_answer(const uint8_t *text, size_t text_len, const uint8_t *answer, size_t answer_len);

/* Of a claim: refusal 0, 14, 15 or 16; how many states it has, the start and how many propositions; of each state 1 where it
 * is accepting, and the place and length of its name in the text, without the quotes, 0 and 0 where it has none (an empty
 * name has its place and length 0). All but the refusal is 0 where the claim is refused, and so is what belongs to states
 * that it does not have. */
typedef struct {
    uint32_t refusal, states, start, propositions;
    uint32_t accepting[REZKUNDO_MOST_STATES], name_at[REZKUNDO_MOST_STATES], name_length[REZKUNDO_MOST_STATES];
} rezkundo_claim;

/* Reads a claim in the Hanoi Omega-Automata format, version 1, as docs/FORMATS.md says what of it is taken. */
rezkundo_claim rezkundo_read_claim(const uint8_t *text, size_t text_len);

/* The states to which a state of a claim may move on flag values, where bit i is proposition i: bit d stands for state d.
 * 0 where the claim is refused, and where the state or the values are out of range. Each call reads the text anew. */
uint32_t rezkundo_claim_moves(const uint8_t *text, size_t text_len, uint32_t state, uint32_t values);

/* Of a chart: refusal 0, 17, 18 or 19; with 18 and 19 the first pair of a mode and a flag combination that has no rule or
 * two, by mode and then combination, else 0 and 0. */
typedef struct { uint32_t refusal, mode, combination; } rezkundo_charted;

/* Checks a chart of modes, laid out as docs/FORMATS.md says. */
rezkundo_charted rezkundo_check_chart(const uint8_t *chart, size_t chart_len);

/* Of a case file that is built, or of steps that are listed: refusal or 0; with 18 and 19 the chart's first bad pair, else 0
 * and 0; the length in bytes of what was written, 0 with every refusal. */
typedef struct { uint32_t refusal, mode, combination, written; } rezkundo_built;

/* Builds the case file of a chart and a claim for so many workers, as docs/FORMATS.md says. 11 if the output has under
 * 65,536 bytes, then 5 if the workers are not 1 to 16; then 17 to 19 for the chart, 14 to 16 for the claim, 20 if the claim
 * has another number of propositions than the chart has flags, 21 if the case would have more than 2,000 edges. A refused
 * call leaves the output as it was. After a result the case file stands at the output's front, the rest of it unchanged. */
rezkundo_built rezkundo_build_case(const uint8_t *chart, size_t chart_len, const uint8_t *claim, size_t claim_len,
                                   uint32_t workers, uint8_t *output, size_t output_len);

/* Lists the steps of an answer to that case file by names: for each edge of a lasso, stem first, a line with the mode and the
 * claim state that the edge leaves. 11, and 14 to 21, as above; then 1, 3, 12 or 13 for the answer, as the check of it to the
 * case file gives, whatever the workers. A refused call leaves the output as it was. After a result the lines stand at the
 * output's front, the rest of it unchanged; an "empty" that passes has none, with refusal 0 and length 0. */
rezkundo_built rezkundo_list_steps(const uint8_t *chart, size_t chart_len, const uint8_t *claim, size_t claim_len,
                                   const uint8_t *answer, size_t answer_len, uint8_t *output, size_t output_len);

#ifdef __cplusplus
}
#endif

#endif
