/* See cases.h. */
#include "cases.h"

#include <stdarg.h>
#include <stdio.h>
#include <stdlib.h>

static void append(struct text *to, const char *format, ...)
{
    va_list values;
    va_start(values, format);
    size_t room = sizeof to->bytes - to->size;
    int size = vsnprintf(to->bytes + to->size, room, format, values);
    va_end(values);
    if (size < 0 || (size_t)size >= room)
        abort();
    to->size += (size_t)size;
}

static int edges_of(enum shape shape) { return shape == LAP ? VERTICES : EDGES; }

static int is_edge(enum shape shape, int from, int to)
{
    int ahead = (to - from + VERTICES) % VERTICES;
    switch (shape) {
    case LAP:
        return ahead == 1;
    case KNOT:
        return ahead < 4;
    case FAN:
        return from < 4;
    default:
        /* 1,990 edges of up to four ahead, and 10 of five ahead. */
        return to > from && (to - from <= 4 || (to - from == 5 && from < 10));
    }
}

/* A lap breaks the floor where it leaves the accepting vertex for the second time, so that one stands before the last. */
static int is_accepting(enum shape shape, int vertex)
{
    switch (shape) {
    case LAP:
        return vertex == VERTICES - 2;
    case FAN:
        return vertex == VERTICES - 1;
    case LADDER:
        return vertex != VERTICES - 1;
    default:
        return 1;
    }
}

static void write_vertices(struct text *to, enum shape shape)
{
    append(to, "vertex accepting owner\n");
    for (int v = 0; v < VERTICES; v++)
        append(to, "%d %d %d\n", v, is_accepting(shape, v), v % WORKERS);
}

static void write_edges(struct text *to, enum shape shape)
{
    append(to, "from to\n");
    for (int pair = 0; pair < VERTICES * VERTICES; pair++)
        if (is_edge(shape, pair / VERTICES, pair % VERTICES))
            append(to, "%d %d\n", pair / VERTICES, pair % VERTICES);
}

void write_case(struct text *to, enum shape shape)
{
    to->size = 0;
    append(to, "version vertices edges source workers\n1 %d %d %d %d\n", VERTICES, edges_of(shape),
           shape == KNOT ? VERTICES - 1 : 0, WORKERS);
    write_vertices(to, shape);
    write_edges(to, shape);
}

void write_longest_lasso(struct text *to, int edge)
{
    to->size = 0;
    append(to, "version verdict stem cycle reached\n2 lasso %d %d 0\nedge\n", MOST_LISTED, MOST_LISTED);
    for (int line = 0; line < 2 * MOST_LISTED; line++)
        append(to, "%d\n", edge);
}

/* One pass; its length. */
static size_t write_pass(uint32_t *acts, enum shape shape)
{
    size_t length = 0;
    uint32_t edge = 0;
    for (int pair = 0; pair < VERTICES * VERTICES; pair++) {
        if (pair % VERTICES == 0)
            acts[length++] = (uint32_t)(pair / VERTICES % WORKERS);
        if (is_edge(shape, pair / VERTICES, pair % VERTICES))
            acts[length++] = WORKERS + edge++;
    }
    return length;
}

void write_acts(uint32_t acts[ACTS], enum shape shape)
{
    size_t pass = write_pass(acts, shape);
    for (size_t i = pass; i < ACTS; i++)
        acts[i] = acts[i - pass];
}

void write_chart(struct text *to, int modes)
{
    int combinations = 1 << REZKUNDO_MOST_FLAGS;
    int matched = combinations * modes / REZKUNDO_MOST_RULES;
    to->size = 0;
    append(to, "version modes start flags\n1 %d %d %d\nname\n", modes, modes - 1, REZKUNDO_MOST_FLAGS);
    for (int mode = 0; mode < modes; mode++)
        append(to, "%0*d\n", REZKUNDO_LONGEST_NAME, mode);
    append(to, "mode care value next\n");
    for (int rule = 0; rule < REZKUNDO_MOST_RULES; rule++)
        append(to, "%d %d %d %d\n", rule * matched / combinations, combinations - matched, rule * matched % combinations,
               modes - 1);
}

void write_claim(struct text *to)
{
    const char *labels[] = {"((((((((((((((((t))))))))))))))))", "!!!!!!!!!!!!!!!!t", "0 | !0", "t"};
    int states = REZKUNDO_MOST_STATES;
    to->size = 0;
    append(to, "HOA: v1\nStates: %d\nStart: 0\nAP: %d", states, REZKUNDO_MOST_FLAGS);
    for (int flag = 0; flag < REZKUNDO_MOST_FLAGS; flag++)
        append(to, " \"p%d\"", flag);
    append(to, "\nAcceptance: 1 Inf(0)\n--BODY--\n");
    for (int state = 0; state < states; state++) {
        append(to, "State: %d \"%032d\" {0}\n", state, state);
        for (int move = 0; move < MOVES; move++)
            append(to, "[%s] %d\n", labels[move], (state + move) % states);
    }
    append(to, "--END--\n");
}
