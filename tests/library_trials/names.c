/* Prints what the header names, and where what comes of a run, a claim, a chart and what is built of both has its fields, as
 * the other bindings' trials do. refusals.inc is made of the header's own names: REFUSAL(name) for each. */
#include <stdio.h>

#include "rezkundo.h"

#define LIMIT(name) printf(#name " %d\n", REZKUNDO_##name);
#define VERDICT(name) printf("verdict %d " #name "\n", REZKUNDO_##name);
#define FIELD(type, name) \
    printf("field " #name " at %zu, %zu bytes\n", offsetof(rezkundo_##type, name), sizeof ((rezkundo_##type *)0)->name);
#define REFUSAL(name) printf("refusal %d " #name "\n", REZKUNDO_REFUSED_##name);

int main(void)
{
    printf("library %u\n", (unsigned)rezkundo_version());
    LIMIT(VERSION)
    LIMIT(LONGEST_FILE)
    LIMIT(LEAST_OUTPUT)
    LIMIT(LEAST_WORK)
    LIMIT(MOST_STATES)
    LIMIT(LONGEST_CLAIM)
    LIMIT(MOST_MODES)
    LIMIT(MOST_FLAGS)
    LIMIT(MOST_RULES)
    LIMIT(LONGEST_NAME)
    LIMIT(LEAST_CASE)
    LIMIT(LEAST_STEPS)
    VERDICT(LASSO)
    VERDICT(EMPTY)
#include "refusals.inc"
    printf("outcome of %zu bytes\n", sizeof(rezkundo_outcome));
    FIELD(outcome, refusal)
    FIELD(outcome, verdict)
    FIELD(outcome, acts)
    FIELD(outcome, written)
    FIELD(outcome, sent)
    FIELD(outcome, delivered)
    FIELD(outcome, joined)
    printf("claim of %zu bytes\n", sizeof(rezkundo_claim));
    FIELD(claim, refusal)
    FIELD(claim, states)
    FIELD(claim, start)
    FIELD(claim, propositions)
    FIELD(claim, accepting)
    FIELD(claim, name_at)
    FIELD(claim, name_length)
    printf("charted of %zu bytes\n", sizeof(rezkundo_charted));
    FIELD(charted, refusal)
    FIELD(charted, mode)
    FIELD(charted, combination)
    printf("built of %zu bytes\n", sizeof(rezkundo_built));
    FIELD(built, refusal)
    FIELD(built, mode)
    FIELD(built, combination)
    FIELD(built, written)
    return 0;
}
