/* find CASE: runs a case file by rounds, has the library check its own answer, and prints the answer and what the check
 * says. Exit status: 0 the answer passed, 1 refused, 2 trouble.
 *
 *   cc -I include bindings/c/find.c target/staticlib/librezkundo.a -o find
 */
#include <stdio.h>

#include "rezkundo.h"

enum { PASSED = 0, REFUSED = 1, TROUBLE = 2 };

/* One byte more than a case may have, so that a longer one is refused and not cut. */
static uint8_t text[REZKUNDO_LONGEST_FILE + 1];
static uint8_t output[REZKUNDO_LEAST_OUTPUT];
static int32_t work[REZKUNDO_LEAST_WORK];

/* The word for a verdict; null for one that this program does not know. */
static const char *word(uint32_t verdict)
{
    switch (verdict) {
    case REZKUNDO_LASSO:
        return "lasso";
    case REZKUNDO_EMPTY:
        return "empty";
    default:
        return NULL;
    }
}

static int trouble(const char *what)
{
    fprintf(stderr, "%s\n", what);
    return TROUBLE;
}

/* What is printed, and the exit status for it. That all of it was written is seen at the end, by main. */
static int find(size_t size)
{
    rezkundo_outcome found = rezkundo_run_rounds(text, size, output, sizeof output, work, REZKUNDO_LEAST_WORK);
    if (found.refusal != 0) {
        printf("refused %u\n", (unsigned)found.refusal);
        return REFUSED;
    }
    if (word(found.verdict) == NULL)
        return trouble("the library gives a verdict that this program does not know");
    fwrite(output, 1, found.written, stdout);

    rezkundo_checked checked = rezkundo_check_answer(text, size, output, found.written);
    if (checked.refusal != 0) {
        printf("check refused %u\n", (unsigned)checked.refusal);
        return REFUSED;
    }
    if (checked.verdict != found.verdict)
        return trouble("run and check differ");
    printf("check passed %s\n", word(checked.verdict));
    return PASSED;
}

int main(int argc, char **argv)
{
    if (argc != 2)
        return trouble("usage: find CASE");
    FILE *file = fopen(argv[1], "rb");
    size_t size = file ? fread(text, 1, sizeof text, file) : 0;
    if (!file || ferror(file)) {
        perror(argv[1]);
        return TROUBLE;
    }
    fclose(file);
    int status = find(size);
    if (fflush(stdout) != 0 || ferror(stdout)) {
        perror("standard output");
        return TROUBLE;
    }
    return status;
}
