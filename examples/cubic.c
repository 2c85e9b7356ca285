/* Splits a cubic in two, then asks for a split that is refused. Build it from the repository's root:
 *
 *     (cd crates/outline && rt lib)
 *     cc -std=c99 -Wall -Wextra -Werror -I include examples/cubic.c crates/outline/out/liboutline.a -o cubic
 */
#include "outline.h"

#include <inttypes.h>
#include <stdio.h>
#include <string.h>

static void print_cubic(const char *name, const double c[8])
{
    printf("%s:", name);
    for (int k = 0; k < 8; k += 2)
        printf(" (%g, %g)", c[k], c[k + 1]);
    printf("\n");
}

static int failed(const char *why)
{
    fprintf(stderr, "%s\n", why);
    return 1;
}

int main(void)
{
    const double c[8] = {0, 0, 0, 4, 4, 4, 4, 0};
    const double left[8] = {0, 0, 0, 2, 1, 3, 2, 3};
    double before[8], after[8];
    outline_answer answer;

    uint32_t refusal = outline_split_cubic(c, 0.5, before, 8, after, 8, &answer);
    if (refusal != OUTLINE_ACCEPTED || answer.count != 4)
        return failed("the split at 0.5 should be accepted, with 4 points in each half");
    if (memcmp(before, left, sizeof left) != 0 || memcmp(after, before + 6, 2 * sizeof *after) != 0)
        return failed("the halves should meet at the middle of the curve");
    print_cubic("before", before);
    print_cubic("after", after);

    /* So far beyond its end, the curve leaves the square of 131,072 that every number must be in. */
    double kept[8];
    memcpy(kept, after, sizeof kept);
    refusal = outline_split_cubic(c, 100, before, 8, after, 8, &answer);
    if (refusal != OUTLINE_RESULT || answer.place != 0)
        return failed("the split at 100 should be refused for its result");
    if (memcmp(before, left, sizeof left) != 0 || memcmp(after, kept, sizeof kept) != 0)
        return failed("a refusal should leave the buffers as they were");
    printf("refused %" PRIu32 " at place %" PRIu64 ", halves unchanged\n", refusal, answer.place);
    return 0;
}
