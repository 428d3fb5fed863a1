/* A library that is not this one: its runs and its checks give the verdicts that it was built with, and one that a caller
 * does not know must never read as "empty". */
#include <string.h>

#include "rezkundo.h"

static const char answer[] = "an answer of another kind\n";

uint32_t rezkundo_version(void) { return REZKUNDO_VERSION + 1; }

static rezkundo_outcome run(uint8_t *output)
{
    rezkundo_outcome outcome = {0, RUN_VERDICT, 1, sizeof answer - 1, 0, 0, 0};
    memcpy(output, answer, sizeof answer - 1);
    return outcome;
}

rezkundo_outcome rezkundo_run_list(const uint8_t *text, size_t text_len, const uint32_t *acts, size_t acts_len,
                                   uint8_t *output, size_t output_len, int32_t *work, size_t work_len)
{
    (void)text, (void)text_len, (void)acts, (void)acts_len, (void)output_len, (void)work, (void)work_len;
    return run(output);
}

rezkundo_outcome rezkundo_run_rounds(const uint8_t *text, size_t text_len, uint8_t *output, size_t output_len,
                                     int32_t *work, size_t work_len)
{
    (void)text, (void)text_len, (void)output_len, (void)work, (void)work_len;
    return run(output);
}

rezkundo_checked rezkundo_check_answer(const uint8_t *text, size_t text_len, const uint8_t *lent, size_t lent_len)
{
    rezkundo_checked checked = {0, CHECK_VERDICT};
    (void)text, (void)text_len, (void)lent, (void)lent_len;
    return checked;
}

rezkundo_claim rezkundo_read_claim(const uint8_t *text, size_t text_len)
{
    rezkundo_claim claim = {.refusal = 99};
    (void)text, (void)text_len;
    return claim;
}

uint32_t rezkundo_claim_moves(const uint8_t *text, size_t text_len, uint32_t state, uint32_t values)
{
    (void)text, (void)text_len, (void)state, (void)values;
    return 0;
}

rezkundo_charted rezkundo_check_chart(const uint8_t *chart, size_t chart_len)
{
    rezkundo_charted charted = {.refusal = 99};
    (void)chart, (void)chart_len;
    return charted;
}

rezkundo_built rezkundo_build_case(const uint8_t *chart, size_t chart_len, const uint8_t *claim, size_t claim_len,
                                   uint32_t workers, uint8_t *output, size_t output_len)
{
    rezkundo_built built = {.refusal = 99};
    (void)chart, (void)chart_len, (void)claim, (void)claim_len, (void)workers, (void)output, (void)output_len;
    return built;
}

rezkundo_built rezkundo_list_steps(const uint8_t *chart, size_t chart_len, const uint8_t *claim, size_t claim_len,
                                   const uint8_t *lent, size_t lent_len, uint8_t *output, size_t output_len)
{
    (void)lent, (void)lent_len;
    return rezkundo_build_case(chart, chart_len, claim, claim_len, 1, output, output_len);
}
