/* replay CASE ACTS: runs a case file by a list of acts of any length, one act number to a line, has the library check
 * its own answer, and prints refusal, verdict, acts and the three tallies, a line each, then the answer. Exit status: 0
 * the answer passed, 1 refused, 2 trouble. A list with a line that is no act is not run.
 *
 *   cc -I include bindings/c/replay.c target/staticlib/librezkundo.a -o replay
 */
#include <inttypes.h>
#include <stdio.h>
#include <stdlib.h>

#include "rezkundo.h"

enum { PASSED = 0, REFUSED = 1, TROUBLE = 2 };
enum { MOST_DIGITS = 9, FIRST_ROOM = 1024 };

/* What was found at a place of the list. */
enum next { ACT, END, NO_ACT };

/* The acts read so far, in a buffer that grows. */
struct acts {
    uint32_t *numbers;
    size_t count, room;
};

/* One byte more than a case may have, so that a longer one is refused and not cut. */
static uint8_t text[REZKUNDO_LONGEST_FILE + 1];
static uint8_t output[REZKUNDO_LEAST_OUTPUT];
static int32_t work[REZKUNDO_LEAST_WORK];

/* The word for a verdict; null for one that this program does not know. */
static const char *word(uint32_t verdict)
{
    switch (verdict) {
    case REZKUNDO_NONE:
        return "none";
    case REZKUNDO_LASSO:
        return "lasso";
    case REZKUNDO_EMPTY:
        return "empty";
    default:
        return NULL;
    }
}

static int trouble(const char *what)
{
    fprintf(stderr, "%s\n", what);
    return TROUBLE;
}

/* One line: 1 to 9 digits without a leading zero, and a line feed. END only where no byte of a line was read. */
static enum next next_act(FILE *file, uint32_t *act)
{
    int digits = 0, c = getc(file);
    if (c == EOF)
        return END;
    for (*act = 0; c >= '0' && c <= '9' && digits < MOST_DIGITS; digits++) {
        if (digits == 1 && *act == 0)
            return NO_ACT;
        *act = *act * 10 + (uint32_t)(c - '0');
        c = getc(file);
    }
    return digits > 0 && c == '\n' ? ACT : NO_ACT;
}

/* Puts an act behind the others; 0 where there is no memory for it. */
static int append(struct acts *acts, uint32_t act)
{
    if (acts->count == acts->room) {
        size_t room = acts->room == 0 ? FIRST_ROOM : acts->room * 2;
        uint32_t *grown = room > SIZE_MAX / sizeof *grown ? NULL : realloc(acts->numbers, room * sizeof *grown);
        if (grown == NULL)
            return 0;
        acts->numbers = grown;
        acts->room = room;
    }
    acts->numbers[acts->count++] = act;
    return 1;
}

/* Reads the whole list; 0 where it cannot be used, after a line that says why. */
static int read_acts(const char *name, FILE *file, struct acts *acts)
{
    uint32_t act;
    enum next next;
    while ((next = next_act(file, &act)) == ACT) {
        if (!append(acts, act)) {
            trouble("not enough memory for the list");
            return 0;
        }
    }
    if (ferror(file)) {
        perror(name);
        return 0;
    }
    if (next == NO_ACT)
        fprintf(stderr,
                "%s: line %zu: expected an act, a number of 1 to %d digits without leading zeros, and a line feed\n",
                name, acts->count + 1, MOST_DIGITS);
    return next == END;
}

/* What is printed, and the exit status for it. That all of it was written is seen at the end, by main. */
static int replay(size_t size, const struct acts *acts)
{
    rezkundo_outcome run = rezkundo_run_list(text, size, acts->numbers, acts->count, output, sizeof output, work,
                                             REZKUNDO_LEAST_WORK);
    if (word(run.verdict) == NULL || (run.verdict == REZKUNDO_NONE) != (run.refusal != 0))
        return trouble("the library gives a verdict that this program does not know");
    if (run.refusal == 0) {
        rezkundo_checked checked = rezkundo_check_answer(text, size, output, run.written);
        if (checked.refusal != 0 || checked.verdict != run.verdict)
            return trouble("the answer does not pass its check");
    }
    printf("refusal %" PRIu32 "\nverdict %s\nacts %" PRIu64 "\n", run.refusal, word(run.verdict), run.acts);
    printf("sent %" PRIu32 "\ndelivered %" PRIu32 "\njoined %" PRIu32 "\n", run.sent, run.delivered, run.joined);
    fwrite(output, 1, run.written, stdout);
    return run.refusal == 0 ? PASSED : REFUSED;
}

static int replay_files(char **names, FILE *file, FILE *list)
{
    struct acts acts = {NULL, 0, 0};
    size_t size = fread(text, 1, sizeof text, file);
    if (ferror(file)) {
        perror(names[0]);
        return TROUBLE;
    }
    int status = read_acts(names[1], list, &acts) ? replay(size, &acts) : TROUBLE;
    free(acts.numbers);
    return status;
}

int main(int argc, char **argv)
{
    if (argc != 3)
        return trouble("usage: replay CASE ACTS");
    FILE *file = fopen(argv[1], "rb");
    FILE *list = file ? fopen(argv[2], "rb") : NULL;
    if (!file || !list) {
        perror(file ? argv[2] : argv[1]);
        return TROUBLE;
    }
    int status = replay_files(argv + 1, file, list);
    fclose(file);
    fclose(list);
    if (fflush(stdout) != 0 || ferror(stdout)) {
        perror("standard output");
        return TROUBLE;
    }
    return status;
}
