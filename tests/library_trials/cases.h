/* The largest cases that there are, as texts, lists of acts for them, the largest charts, and a claim for them. */
#ifndef CASES_H
#define CASES_H

#include "rezkundo.h"

#define VERTICES 500
#define EDGES 2000
#define WORKERS 16
#define MOST_LISTED 500
/* Enough for every shape to end. */
#define ACTS 600000

struct text {
    size_t size;
    char bytes[REZKUNDO_LONGEST_FILE + 1];
};

/* LAP: a ring of one edge each, one accepting vertex, so that the stem has 499 and the cycle 500 edges.
 * KNOT: four edges from each vertex, one to itself; all accepting, the source last.
 * LADDER: 2,000 edges that only rise, all vertices accepting but the last, which rests: empty, with distances down to -499.
 * FAN: four vertices with an edge to each, and 496 that rest: with their loops 2,496 edges. The last one accepts, by the last
 * loop. */
enum shape { LAP, KNOT, LADDER, FAN, SHAPES };

void write_case(struct text *to, enum shape shape);

/* An answer of greatest counts: 500 times round this edge, from the source to itself, and 500 times more. In the KNOT it is
 * the last one. */
void write_longest_lasso(struct text *to, int edge);

/* Passes over a shape, the last one cut: for each vertex a turn of its owner and deliveries on all its edges. */
void write_acts(uint32_t acts[ACTS], enum shape shape);

/* A right chart with as many rules as there may be, shared evenly among its modes, of which there are a power of two from 2
 * on. The more modes, the longer it is. */
void write_chart(struct text *to, int modes);

/* A right claim with as many states and propositions as there may be, longest names and deepest labels. Whatever the flags,
 * it goes from each state to MOVES states; from state 0, the start, first to itself. With the longest chart it makes a case
 * of 480 vertices and 1,920 edges. */
#define MOVES 4
void write_claim(struct text *to);

#endif
