/* A square badge, kept cut while it is edited: a corner rounded, one moved, a side split, an edit that is refused; then its outline as
 * SVG path data. Build it from the repository's root:
 *
 *     (cd crates/outline && rt lib)
 *     cc -std=c99 -Wall -Wextra -Werror -I include examples/edits.c crates/outline/out/liboutline.a -o edits
 */
#include "outline.h"

#include <stdio.h>

enum { MOST = 8, ROUND = 0 };

/* A drawing and its cut cache, with room for MOST anchors. */
static uint32_t shapes[1] = {0x80000000u | 4}; /* one closed subpath of four anchors */
static double anchors[6 * MOST] = {
    0, 0, 0, 0, 0, 0, /* each: the point, its handle in, its handle out */
    8, 0, 8, 0, 8, 0, 8, 8, 8, 8, 8, 8, 0, 8, 0, 8, 0, 8,
};
static double radii[MOST];
static double numbers[12 * MOST];
static uint32_t flags[MOST];

/* What every call on it is lent. */
#define BADGE shapes, 1, anchors, 6 * MOST, radii, MOST, ROUND, numbers, 12 * MOST, flags, MOST

static void say(const char *what, uint32_t refusal, const outline_answer *answer)
{
    if (refusal != OUTLINE_ACCEPTED)
        printf("%s: refused %u at %llu\n", what, (unsigned)refusal, (unsigned long long)answer->place);
    else
        printf("%s: %llu places recut, %llu anchors\n", what, (unsigned long long)answer->recut, (unsigned long long)answer->count);
}

int main(void)
{
    const double moved[6] = {10, 9, 10, 9, 10, 9};
    uint32_t words[1];
    double outline[12 * MOST];
    uint8_t text[512];
    outline_answer answer;
    uint32_t refusal;

    refusal = outline_build(BADGE, &answer);
    if (refusal != OUTLINE_ACCEPTED)
        return 1;
    say("radius of corner 0", outline_set_radius(BADGE, 0, 0, 2.0, &answer), &answer);
    say("corner 2 moved", outline_move_anchor(BADGE, 0, 2, moved, &answer), &answer);
    say("last side split", outline_split_segment(BADGE, 0, 3, 0.5, &answer), &answer);
    say("corner 7 moved", outline_move_anchor(BADGE, 0, 7, moved, &answer), &answer);

    refusal = outline_assemble(shapes, 1, numbers, 12 * MOST, flags, MOST, words, 1, outline, 12 * MOST, &answer);
    if (refusal != OUTLINE_ACCEPTED)
        return 1;
    refusal = outline_to_svg_d(words, 1, outline, 12 * MOST, text, sizeof text, &answer);
    if (refusal != OUTLINE_ACCEPTED)
        return 1;
    printf("%.*s\n", (int)answer.count, (const char *)text);
    return 0;
}
