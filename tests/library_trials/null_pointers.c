/* Every entry with every buffer lent as a null pointer and length 0, each alone and all together. */
#include <stdio.h>
#include <string.h>

#include "rezkundo.h"

#define FILLED 0x5a

static const char text[] = "version vertices edges source workers\n1 3 3 0 2\n"
                           "vertex accepting owner\n0 0 0\n1 1 1\n2 0 0\nfrom to\n0 1\n1 2\n2 1\n";
static const uint32_t acts[] = {0, 2, 1, 3, 0, 4, 1, 3};
static const char chart[] = "version modes start flags\n1 1 0 1\nname\nHold\nmode care value next\n0 0 0 0\n";
static const char claim[] = "HOA: v1 States: 1 Start: 0 AP: 1 \"p\" Acceptance: 1 Inf(0) "
                            "--BODY-- State: 0 {0} [t] 0 --END--";
static const char lasso[] = "version verdict stem cycle reached\n2 lasso 0 1 0\nedge\n0\n";
static uint8_t output[REZKUNDO_LEAST_OUTPUT], file[REZKUNDO_LEAST_CASE], steps[REZKUNDO_LEAST_STEPS];
static int32_t work[REZKUNDO_LEAST_WORK];
static int trials, faults;

static void fill(void)
{
    memset(output, FILLED, sizeof output);
    memset(file, FILLED, sizeof file);
    memset(steps, FILLED, sizeof steps);
    memset(work, FILLED, sizeof work);
}

/* Whether every byte of a buffer is this one. */
static int all(const void *buffer, size_t size, int byte)
{
    const unsigned char *bytes = buffer;
    size_t at = 0;
    while (at < size && bytes[at] == byte)
        at++;
    return at == size;
}

static void judge(const char *name, uint32_t refusal, uint32_t expected, int as_promised)
{
    trials++;
    if (refusal != expected || !as_promised) {
        printf("%s: refusal %u, expected %u; the rest is%s right\n", name, (unsigned)refusal, (unsigned)expected,
               as_promised ? "" : " not");
        faults++;
    }
}

/* A refused run that did no act: all numbers but the refusal are 0, and nothing is changed, save that 10 leaves work all
 * zeros. */
static void refused(const char *name, rezkundo_outcome run, uint32_t expected)
{
    int work_left = expected == REZKUNDO_REFUSED_UNENDED ? 0 : FILLED;
    int no_tallies = run.sent == 0 && run.delivered == 0 && run.joined == 0;
    judge(name, run.refusal, expected,
          run.verdict == REZKUNDO_NONE && run.acts == 0 && run.written == 0 && no_tallies &&
              all(output, sizeof output, FILLED) && all(work, sizeof work, work_left));
    fill();
}

static void checked(const char *name, rezkundo_checked check, uint32_t expected)
{
    judge(name, check.refusal, expected, check.verdict == REZKUNDO_NONE);
}

/* A refused claim: all but the refusal is 0. */
static void unread(const char *name, rezkundo_claim claim, uint32_t expected)
{
    uint32_t refusal = claim.refusal;
    claim.refusal = 0;
    judge(name, refusal, expected, all(&claim, sizeof claim, 0));
}

/* A chart that is refused for no pair. */
static void unpaired(const char *name, rezkundo_charted chart, uint32_t expected)
{
    judge(name, chart.refusal, expected, chart.mode == 0 && chart.combination == 0);
}

/* A case that is not built, or steps that are not listed: all numbers but the refusal are 0, and nothing is changed. */
static void unbuilt(const char *name, rezkundo_built built, uint32_t expected)
{
    judge(name, built.refusal, expected,
          built.mode == 0 && built.combination == 0 && built.written == 0 && all(file, sizeof file, FILLED) &&
              all(steps, sizeof steps, FILLED));
    fill();
}

#define TEXT (const uint8_t *)text, sizeof text - 1
#define LIST acts, sizeof acts / sizeof *acts
#define OUTPUT output, sizeof output
#define WORK work, REZKUNDO_LEAST_WORK
#define CHART (const uint8_t *)chart, sizeof chart - 1
#define CLAIM (const uint8_t *)claim, sizeof claim - 1
#define LASSO (const uint8_t *)lasso, sizeof lasso - 1
#define FILE_OUTPUT file, sizeof file
#define STEPS_OUTPUT steps, sizeof steps
#define NOTHING NULL, 0

static void charts_and_claims(void)
{
    unbuilt("build, chart", rezkundo_build_case(NOTHING, CLAIM, 1, FILE_OUTPUT), REZKUNDO_REFUSED_CHART);
    unbuilt("build, claim", rezkundo_build_case(CHART, NOTHING, 1, FILE_OUTPUT), REZKUNDO_REFUSED_NOT_A_CLAIM);
    unbuilt("build, output", rezkundo_build_case(CHART, CLAIM, 1, NOTHING), REZKUNDO_REFUSED_BUFFER_TOO_SHORT);
    unbuilt("build, both files", rezkundo_build_case(NOTHING, NOTHING, 1, FILE_OUTPUT), REZKUNDO_REFUSED_CHART);
    unbuilt("build, all", rezkundo_build_case(NOTHING, NOTHING, 1, NOTHING), REZKUNDO_REFUSED_BUFFER_TOO_SHORT);
    unbuilt("steps, chart", rezkundo_list_steps(NOTHING, CLAIM, LASSO, STEPS_OUTPUT), REZKUNDO_REFUSED_CHART);
    unbuilt("steps, claim", rezkundo_list_steps(CHART, NOTHING, LASSO, STEPS_OUTPUT), REZKUNDO_REFUSED_NOT_A_CLAIM);
    unbuilt("steps, answer", rezkundo_list_steps(CHART, CLAIM, NOTHING, STEPS_OUTPUT), REZKUNDO_REFUSED_ANSWER_LAYOUT);
    unbuilt("steps, output", rezkundo_list_steps(CHART, CLAIM, LASSO, NOTHING), REZKUNDO_REFUSED_BUFFER_TOO_SHORT);
    unbuilt("steps, all files", rezkundo_list_steps(NOTHING, NOTHING, NOTHING, STEPS_OUTPUT), REZKUNDO_REFUSED_CHART);
    unbuilt("steps, all", rezkundo_list_steps(NOTHING, NOTHING, NOTHING, NOTHING), REZKUNDO_REFUSED_BUFFER_TOO_SHORT);
}

int main(void)
{
    fill();
    refused("list, text", rezkundo_run_list(NOTHING, LIST, OUTPUT, WORK), REZKUNDO_REFUSED_NOT_A_CASE);
    refused("list, acts", rezkundo_run_list(TEXT, NOTHING, OUTPUT, WORK), REZKUNDO_REFUSED_UNENDED);
    refused("list, output", rezkundo_run_list(TEXT, LIST, NOTHING, WORK), REZKUNDO_REFUSED_BUFFER_TOO_SHORT);
    refused("list, work", rezkundo_run_list(TEXT, LIST, OUTPUT, NOTHING), REZKUNDO_REFUSED_BUFFER_TOO_SHORT);
    refused("list, text and acts", rezkundo_run_list(NOTHING, NOTHING, OUTPUT, WORK), REZKUNDO_REFUSED_NOT_A_CASE);
    refused("list, all", rezkundo_run_list(NOTHING, NOTHING, NOTHING, NOTHING), REZKUNDO_REFUSED_BUFFER_TOO_SHORT);
    refused("rounds, text", rezkundo_run_rounds(NOTHING, OUTPUT, WORK), REZKUNDO_REFUSED_NOT_A_CASE);
    refused("rounds, output", rezkundo_run_rounds(TEXT, NOTHING, WORK), REZKUNDO_REFUSED_BUFFER_TOO_SHORT);
    refused("rounds, work", rezkundo_run_rounds(TEXT, OUTPUT, NOTHING), REZKUNDO_REFUSED_BUFFER_TOO_SHORT);
    refused("rounds, all", rezkundo_run_rounds(NOTHING, NOTHING, NOTHING), REZKUNDO_REFUSED_BUFFER_TOO_SHORT);
    checked("check, text", rezkundo_check_answer(NOTHING, TEXT), REZKUNDO_REFUSED_NOT_A_CASE);
    checked("check, answer", rezkundo_check_answer(TEXT, NOTHING), REZKUNDO_REFUSED_ANSWER_LAYOUT);
    checked("check, both", rezkundo_check_answer(NOTHING, NOTHING), REZKUNDO_REFUSED_NOT_A_CASE);
    unread("claim", rezkundo_read_claim(NOTHING), REZKUNDO_REFUSED_NOT_A_CLAIM);
    judge("moves", rezkundo_claim_moves(NOTHING, 0, 0), 0, 1);
    unpaired("chart", rezkundo_check_chart(NOTHING), REZKUNDO_REFUSED_CHART);
    charts_and_claims();
    printf("null pointers: %d trials, %d faults\n", trials, faults);
    return faults != 0;
}
