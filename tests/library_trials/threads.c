/* Calls side by side, each thread on buffers of its own and all on the same texts: what each gives must be what one call
 * alone gave before. */
#define _POSIX_C_SOURCE 200809L
#include <pthread.h>
#include <stdio.h>
#include <string.h>

#include "cases.h"

#define THREADS 8
#define TURNS 60

/* By rounds and by a list, for each shape. */
#define JOBS (2 * SHAPES)

struct result {
    rezkundo_outcome run;
    rezkundo_checked check;
    uint8_t output[REZKUNDO_LEAST_OUTPUT];
};

struct desk {
    int first, differences;
    int32_t work[REZKUNDO_LEAST_WORK];
    struct result result;
};

static struct text cases[SHAPES];
static uint32_t acts[SHAPES][ACTS];
static struct result expected[JOBS];
static struct desk desks[THREADS];

static void do_job(int job, struct result *to, int32_t *work)
{
    const struct text *text = &cases[job / 2];
    const uint8_t *bytes = (const uint8_t *)text->bytes;
    memset(to, 0, sizeof *to);
    to->run = job % 2 == 0
                  ? rezkundo_run_rounds(bytes, text->size, to->output, sizeof to->output, work, REZKUNDO_LEAST_WORK)
                  : rezkundo_run_list(bytes, text->size, acts[job / 2], ACTS, to->output, sizeof to->output, work,
                                      REZKUNDO_LEAST_WORK);
    to->check = rezkundo_check_answer(bytes, text->size, to->output, to->run.written);
}

/* Each thread begins with another job, so that different ones run side by side. */
static void *at_desk(void *lent)
{
    struct desk *desk = lent;
    for (int turn = 0; turn < TURNS; turn++) {
        int job = (desk->first + turn) % JOBS;
        do_job(job, &desk->result, desk->work);
        desk->differences += memcmp(&desk->result, &expected[job], sizeof desk->result) != 0;
    }
    return NULL;
}

/* Alone, before any thread is there; every run must end. */
static int prepare(void)
{
    int ended = 0;
    for (int job = 0; job < JOBS; job++) {
        write_case(&cases[job / 2], (enum shape)(job / 2));
        write_acts(acts[job / 2], (enum shape)(job / 2));
        do_job(job, &expected[job], desks[0].work);
        ended += expected[job].run.refusal == 0 && expected[job].check.verdict == expected[job].run.verdict;
    }
    return ended == JOBS;
}

int main(void)
{
    pthread_t threads[THREADS];
    int started = 0, differences = 0;
    if (!prepare()) {
        printf("threads: a run alone did not end, or its answer did not pass\n");
        return 1;
    }
    for (; started < THREADS; started++) {
        desks[started].first = started;
        if (pthread_create(&threads[started], NULL, at_desk, &desks[started]) != 0)
            break;
    }
    for (int i = 0; i < started; i++) {
        pthread_join(threads[i], NULL);
        differences += desks[i].differences;
    }
    printf("threads: %d side by side, %d calls, %d differences\n", started, started * TURNS * 2, differences);
    return started < THREADS || differences != 0;
}
