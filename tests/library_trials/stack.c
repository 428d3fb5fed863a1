/* Runs each entry on a painted stack over the largest cases, charts and claims, and prints the bytes that were used at most.
 * It fails where they are not less than the header says. */
#define _XOPEN_SOURCE 600
#include <stdio.h>
#include <string.h>
#include <ucontext.h>

#include "cases.h"

#define ROOM (1 << 20)
#define PAINT 0xa5

static unsigned char stack[ROOM];
static ucontext_t outside, inside;

/* What the call on the painted stack takes and gives: a context's function has no parameters of use. */
static struct text text, claim_text, answer;
static uint32_t acts[ACTS];
static uint8_t output[REZKUNDO_LEAST_OUTPUT], file[REZKUNDO_LEAST_CASE], steps[REZKUNDO_LEAST_STEPS];
static int32_t work[REZKUNDO_LEAST_WORK];
static rezkundo_outcome run;
static rezkundo_checked check;
static uint32_t version;
static rezkundo_claim claim;
static uint32_t moves;
static rezkundo_charted charted;
static rezkundo_built built;

static void by_list(void)
{
    run = rezkundo_run_list((uint8_t *)text.bytes, text.size, acts, ACTS, output, sizeof output, work,
                            REZKUNDO_LEAST_WORK);
}

static void by_rounds(void)
{
    run = rezkundo_run_rounds((uint8_t *)text.bytes, text.size, output, sizeof output, work, REZKUNDO_LEAST_WORK);
}

static void checking(void)
{
    check = rezkundo_check_answer((uint8_t *)text.bytes, text.size, (uint8_t *)answer.bytes, answer.size);
}

/* The deepest label there is. */
static const char deepest[] = "HOA: v1 States: 1 Start: 0 AP: 1 \"p\" Acceptance: 1 Inf(0) --BODY-- State: 0 \"name\" {0} "
                              "[((((((((((((((((0))))))))))))))))] 0 [!!!!!!!!!!!!!!!!0 & 0 | 0] 0 --END--";

static void reading(void) { claim = rezkundo_read_claim((const uint8_t *)deepest, sizeof deepest - 1); }

static void moving(void) { moves = rezkundo_claim_moves((const uint8_t *)deepest, sizeof deepest - 1, 0, 1); }

static void charting(void) { charted = rezkundo_check_chart((uint8_t *)text.bytes, text.size); }

static void building(void)
{
    built = rezkundo_build_case((uint8_t *)text.bytes, text.size, (uint8_t *)claim_text.bytes, claim_text.size, WORKERS,
                                file, sizeof file);
}

static void listing(void)
{
    built = rezkundo_list_steps((uint8_t *)text.bytes, text.size, (uint8_t *)claim_text.bytes, claim_text.size,
                                (uint8_t *)answer.bytes, answer.size, steps, sizeof steps);
}

static void asking(void) { version = rezkundo_version(); }

/* The bytes of stack between the first and the farthest that a call changed. */
static size_t used(void (*call)(void))
{
    memset(stack, PAINT, sizeof stack);
    getcontext(&inside);
    inside.uc_stack.ss_sp = stack;
    inside.uc_stack.ss_size = sizeof stack;
    inside.uc_link = &outside;
    makecontext(&inside, call, 0);
    swapcontext(&outside, &inside);
    size_t untouched = 0;
    while (untouched < sizeof stack && stack[untouched] == PAINT)
        untouched++;
    return sizeof stack - untouched;
}

static size_t larger(size_t a, size_t b) { return a > b ? a : b; }

/* A trial that does not end in a verdict, does not take its chart, or does not write its case or its steps, has measured
 * something else. */
static int verdicts;

static size_t run_used(void (*call)(void))
{
    size_t size = used(call);
    verdicts += run.refusal == 0;
    memcpy(answer.bytes, output, run.written);
    answer.size = run.written;
    return size;
}

static size_t check_used(void)
{
    size_t size = used(checking);
    verdicts += check.refusal == 0;
    return size;
}

static size_t chart_used(int modes)
{
    write_chart(&text, modes);
    size_t size = used(charting);
    verdicts += charted.refusal == 0;
    return size;
}

/* Of a call on the longest chart and the claim, which must write so many bytes or more. */
static size_t built_used(void (*call)(void), uint32_t least)
{
    size_t size = used(call);
    verdicts += built.refusal == 0 && built.written >= least;
    return size;
}

int main(void)
{
    size_t list = 0, rounds = 0, checks = 0, asked = used(asking), read = used(reading), moved = used(moving), longest = 0;
    size_t charts = larger(chart_used(2), chart_used(REZKUNDO_MOST_MODES));
    write_chart(&text, REZKUNDO_MOST_MODES);
    write_claim(&claim_text);
    write_longest_lasso(&answer, (REZKUNDO_MOST_MODES - 1) * REZKUNDO_MOST_STATES * MOVES);
    size_t build = built_used(building, 15000), listed = built_used(listing, 50000);
    for (int shape = 0; shape < SHAPES; shape++) {
        write_case(&text, (enum shape)shape);
        write_acts(acts, (enum shape)shape);
        list = larger(list, run_used(by_list));
        rounds = larger(rounds, run_used(by_rounds));
        longest = larger(longest, answer.size);
        checks = larger(checks, check_used());
    }
    write_case(&text, KNOT);
    write_longest_lasso(&answer, EDGES - 1);
    checks = larger(checks, check_used());
    printf("stack: run_list %zu, run_rounds %zu, check_answer %zu, read_claim %zu, claim_moves %zu, check_chart %zu, "
           "version %zu of %d bytes; build_case %zu of %d; list_steps %zu of %d; longest answer %zu\n",
           list, rounds, checks, read, moved, charts, asked, REZKUNDO_STACK, build, REZKUNDO_STACK_CASE, listed,
           REZKUNDO_STACK_STEPS, longest);
    if (claim.states != 1 || moves != 1) {
        printf("stack: the claim was not taken\n");
        return 1;
    }
    if (verdicts != 3 * SHAPES + 1 + 2 + 2) {
        printf("stack: only %d trials ended in a verdict, took the chart or wrote the case or its steps\n", verdicts);
        return 1;
    }
    size_t most = larger(larger(larger(list, rounds), larger(checks, asked)), larger(larger(read, moved), charts));
    return most >= REZKUNDO_STACK || build >= REZKUNDO_STACK_CASE || listed >= REZKUNDO_STACK_STEPS;
}
