/* The C interface of the outline core: C99, no allocation, no global state, no pointer kept after a call returns.
 *
 * What the caller owes, and nothing checks: every pointer is valid for the length that stands beside it (or in its
 * declaration), aligned for its type, and what a call writes to overlaps nothing else that is lent to it. The processor
 * rounds to nearest, ties to even, and does not flush subnormal numbers, as on any thread that has changed neither.
 * A length is in entries of its type, not in bytes. A buffer of length 0 still needs a pointer that is not null.
 *
 * Every call returns a refusal, or OUTLINE_ACCEPTED. Where it refuses, nothing that is lent changes except *answer.
 * Where it accepts, entries past the result keep their bits. */
#ifndef OUTLINE_H
#define OUTLINE_H

#include <stddef.h>
#include <stdint.h>

#ifdef __cplusplus
extern "C" {
#endif

/* Why a call was refused, in document 01's numbers, and in the order in which every call tests: 7, 5, 6, 10, 9, 8. */
enum outline_refusal {
    OUTLINE_ACCEPTED = 0,
    OUTLINE_LISTS = 7,      /* too many subpaths or anchors, or a list too short for its shape */
    OUTLINE_ARGUMENTS = 5,  /* a number given is not finite, or of magnitude above 131,072 */
    OUTLINE_REFERENCE = 6,  /* no such subpath, anchor or segment */
    OUTLINE_CAPACITY = 10,  /* the result would pass 512 anchors */
    OUTLINE_RESULT = 9,     /* a number of the result is not finite, or of magnitude above 131,072 */
    OUTLINE_OUTPUT = 8      /* a buffer lent for the result is too short */
};

/* What a call answers beside its number. Every call writes all four words, 0 where one says nothing. */
typedef struct outline_answer {
    uint64_t place;     /* of a refusal */
    uint64_t count;     /* points, anchors, corners or bytes of the result */
    uint64_t subpaths;  /* subpaths of the result */
    uint64_t recut;     /* places that an edit recut */
} outline_answer;

/* The square root of x, IEEE 754 squareRoot, to nearest with ties to even; a NaN's sign and payload are not specified. */
double outline_root(double x);

/* The length of the vector (x, y), to *length. Refuses 5, 9. */
uint32_t outline_len(double x, double y, double *length, outline_answer *answer);

/* A cubic is its four control points: c0.x, c0.y, c1.x, c1.y, c2.x, c2.y, c3.x, c3.y. */

/* The point of the cubic at t. count is 1. Refuses 5, 9. */
uint32_t outline_cubic_at(const double c[8], double t, double point[2], outline_answer *answer);

/* The points of n equal steps (one step along a straight line, at least one, at most 256), x before y.
 * count is the number of points, at most n + 1; out needs two entries for each. Refuses 5, 9, 8. */
uint32_t outline_sample(const double c[8], size_t n, double *out, size_t out_len, outline_answer *answer);

/* The cubic before t and the cubic after it. Each list needs 8 entries; count is 4, the points in each.
 * Refuses 5, 9, 8. */
uint32_t outline_split_cubic(const double c[8], double t, double *before, size_t before_len,
                             double *after, size_t after_len, outline_answer *answer);

/* The part of the cubic between two parameters. out needs 8 entries; count is 4. Refuses 5, 9, 8. */
uint32_t outline_subsegment(const double c[8], double from, double to, double *out, size_t out_len,
                            outline_answer *answer);

/* A path is a list of shape words, one a subpath (top bit 1 where it is closed, the rest its anchor count, 0 allowed), and six
 * numbers an anchor: p, the handle in, the handle out, x before y. A drawing is a path, one radius an anchor, and a kind. */
enum outline_kind { OUTLINE_ROUND = 0, OUTLINE_INVERTED = 1, OUTLINE_CHAMFER = 2 };

/* The drawing's path with its corners cut: at most 32 subpaths and 512 anchors in, at most twice as many anchors out.
 * subpaths and count say how many words and anchors were written. Refuses 7, 5, 9 at the index in the cut path, 8. */
uint32_t outline_cut_corners(const uint32_t *shapes, size_t shapes_len, const double *anchors, size_t anchors_len,
                             const double *radii, size_t radii_len, uint32_t kind,
                             uint32_t *to_shapes, size_t to_shapes_len, double *to, size_t to_len,
                             outline_answer *answer);

/* A cut cache keeps a drawing's cut place by place, beside the drawing: twelve numbers a place (uncut: the anchor as the cut
 * leaves it, then six zeros; cut: the start, then the end) and a flag (top bit 1 where cut, other bits 0). */

/* Builds the cache of a drawing of at most 32 subpaths and 512 anchors. numbers needs twelve entries a place, flags one.
 * subpaths and count say how many subpaths and places it has. Refuses 7 (also for numbers and flags), 5, 9 at the place. */
uint32_t outline_build(const uint32_t *shapes, size_t shapes_len, const double *anchors, size_t anchors_len,
                       const double *radii, size_t radii_len, uint32_t kind,
                       double *numbers, size_t numbers_len, uint32_t *flags, size_t flags_len,
                       outline_answer *answer);

/* Assembles the cut path from a cache, in the order of outline_cut_corners. Any bits may stand in the cache: only the top bit
 * of a flag is read. subpaths and count say how many words and anchors were written. Refuses 7, 9 at the index in the
 * assembled path, 8. */
uint32_t outline_assemble(const uint32_t *shapes, size_t shapes_len, const double *numbers, size_t numbers_len,
                          const uint32_t *flags, size_t flags_len,
                          uint32_t *to_shapes, size_t to_shapes_len, double *to, size_t to_len,
                          outline_answer *answer);

/* The edits of a drawing and its cut cache, in place: anchor i of subpath s gets six new numbers, or a new radius, or the segment
 * that starts at its anchor a is cut in two at t, its new anchor put at the index after a, with radius 0. Places within three
 * steps of a moved anchor, two of one whose radius is set, four of a new one are recut, in the subpath as the edit leaves it,
 * round the end where it is closed; all other places keep their bits, shifted up by one after a split, whatever stands in them.
 * recut says how many places were recut, count how many anchors there are. Refuses 7 (also for numbers and flags), 5, 6, 9 (at
 * the first place of an anchor written, then of a place recut, numbered as after the edit); a split also 10, and 8 where a list
 * is too short for one place more. */
uint32_t outline_move_anchor(const uint32_t *shapes, size_t shapes_len, double *anchors, size_t anchors_len,
                             const double *radii, size_t radii_len, uint32_t kind,
                             double *numbers, size_t numbers_len, uint32_t *flags, size_t flags_len,
                             size_t s, size_t i, const double anchor[6], outline_answer *answer);
uint32_t outline_set_radius(const uint32_t *shapes, size_t shapes_len, const double *anchors, size_t anchors_len,
                            double *radii, size_t radii_len, uint32_t kind,
                            double *numbers, size_t numbers_len, uint32_t *flags, size_t flags_len,
                            size_t s, size_t i, double radius, outline_answer *answer);
uint32_t outline_split_segment(uint32_t *shapes, size_t shapes_len, double *anchors, size_t anchors_len,
                               double *radii, size_t radii_len, uint32_t kind,
                               double *numbers, size_t numbers_len, uint32_t *flags, size_t flags_len,
                               size_t s, size_t a, double t, outline_answer *answer);

/* Builds the cache of a drawing, then runs a list of those edits one after the other. A call is three words of codes (0 move, 1 set
 * radius, 2 split; subpath; anchor or segment start) and six numbers of values (move: the anchor; else the radius or t, then five
 * that are not read). It is answered in five words of answers: refused: number, place, 0, 0, 0; accepted: 0, places recut, anchors,
 * the place at which its subpath starts, that subpath's word afterwards. A call that is refused changes nothing, and the next one
 * runs. count says how many calls were run. Refuses the whole list 7 (also where codes_len is no multiple of 3, or values or answers
 * are too short), 5 (also for a code above 2, at the anchor count), 9 as outline_build; then no call is run. */
uint32_t outline_replay(uint32_t *shapes, size_t shapes_len, double *anchors, size_t anchors_len,
                        double *radii, size_t radii_len, uint32_t kind,
                        double *numbers, size_t numbers_len, uint32_t *flags, size_t flags_len,
                        const uint32_t *codes, size_t codes_len, const double *values, size_t values_len,
                        uint32_t *answers, size_t answers_len, outline_answer *answer);

/* The corners of a path that can be cut, in order, at most 512 anchors in: to places each one's index through the path, to
 * numbers nine for each: the point, the unit directions u and v in which its sides leave it, towards the anchor before and
 * the one after, x before y, their lengths, and the largest radius of a cut. count is the corners written. Refuses 7, 5, 9, 8. */
uint32_t outline_path_corners(const uint32_t *shapes, size_t shapes_len, const double *anchors, size_t anchors_len,
                              uint32_t *places, size_t places_len, double *numbers, size_t numbers_len,
                              outline_answer *answer);

/* x to three decimals, without trailing zeros, never "-0". count is the bytes written, at most 11. Refuses 5, 8. */
uint32_t outline_write_num(double x, uint8_t *out, size_t out_len, outline_answer *answer);

/* A path as SVG path data, at most 32 subpaths and 1,024 anchors. count is the bytes written. Refuses 7, 5, 8. */
uint32_t outline_to_svg_d(const uint32_t *shapes, size_t shapes_len, const double *anchors, size_t anchors_len,
                          uint8_t *out, size_t out_len, outline_answer *answer);

/* Edits of a path, in place: its lists are read and written. subpaths and count say what the path then has; words and
 * numbers past it keep their bits. A subpath's segments start at its anchors 0, 1, .., the last one's too where it is closed. */

/* Cuts segment a of subpath s in two at t, by de Casteljau's subdivision. The new anchor stands at the index a + 1, also in
 * the segment that closes a subpath. The anchor list needs six entries more. Refuses 7, 5, 6, 10, 9 at the index in the
 * split path, 8. */
uint32_t outline_split(uint32_t *shapes, size_t shapes_len, double *anchors, size_t anchors_len, size_t s, size_t a, double t,
                       outline_answer *answer);

/* The anchors of subpath s of a drawing in the other direction, their handles on the other sides. The radii are read only:
 * their list keeps its order. Refuses 7, 5, 6. */
uint32_t outline_reversed(const uint32_t *shapes, size_t shapes_len, double *anchors, size_t anchors_len,
                          const double *radii, size_t radii_len, size_t s, outline_answer *answer);

/* Joins a path being drawn onto a subpath, to lent lists: one open subpath, the drawn anchors and then the target's. The last of the
 * drawn_count drawn ones lands on the target's first anchor, or, where at_start is 0, on its last, and the target is then passed the
 * other way. The joint keeps the handle that the drawn anchors arrive with, and the target's handle leaving it. None need be drawn.
 * target_word is the target's shape word, of which only the count is read. At most 512 anchors each, and 512 in all. to_shapes needs
 * one entry; subpaths is 1. Refuses 7, 5 (the target's places after the drawn ones'), 6 (an empty target), 10, 9 at the joint, 8. */
uint32_t outline_join(const double *drawn, size_t drawn_len, size_t drawn_count, const double *target, size_t target_len,
                      uint32_t target_word, uint32_t at_start, uint32_t *to_shapes, size_t to_shapes_len,
                      double *to, size_t to_len, outline_answer *answer);

/* Deletes the anchors that which names, a subpath and an anchor of it for each, in any order and any number of times; then
 * every subpath of fewer than 3 anchors, or 2 where it is open, also one that lost none. Both lists keep their lengths:
 * subpaths and count say how much of them the path now takes, and what stands past it keeps its bits. Refuses 7 (also where
 * which_len is odd), 5, 6. */
uint32_t outline_delete(uint32_t *shapes, size_t shapes_len, double *anchors, size_t anchors_len,
                        const uint32_t *which, size_t which_len, outline_answer *answer);

/* Hits: the nearest anchor to (x, y), and the nearest point of the path by 48 chords to a segment, where it is within tol
 * (equal counts), the first on ties; at most 32 subpaths and 512 anchors. The four words of the answer are here place, the
 * anchor (of a segment: the one at which it starts), the subpath, and 1 where something was found, 0 where nothing was.
 * *t is the parameter along the segment, written only where something was found. Both refuse 7, 5. */
uint32_t outline_hit_anchor(const uint32_t *shapes, size_t shapes_len, const double *anchors, size_t anchors_len,
                            double x, double y, double tol, outline_answer *answer);

uint32_t outline_hit_segment(const uint32_t *shapes, size_t shapes_len, const double *anchors, size_t anchors_len,
                             double x, double y, double tol, double *t, outline_answer *answer);

/* The box around a path, at most 32 subpaths and 1,024 anchors: its least x and y, then its greatest. count is 1, or 0
 * where the path has no anchor, and corners keeps its bits. Refuses 7, 5, 9. */
uint32_t outline_bounds(const uint32_t *shapes, size_t shapes_len, const double *anchors, size_t anchors_len,
                        double corners[4], outline_answer *answer);

/* The path with every point p = (x, y) at (m0 x + m2 y + m4, m1 x + m3 y + m5), its shape words as they are: at most 32 subpaths and
 * 512 anchors. Refuses 7, 5 (a number of m at the anchor count), 9, 8. */
uint32_t outline_transform(const uint32_t *shapes, size_t shapes_len, const double *anchors, size_t anchors_len,
                           const double m[6], uint32_t *to_shapes, size_t to_shapes_len, double *to, size_t to_len,
                           outline_answer *answer);

/* Smooth handles for anchor k of subpath s, along its neighbours, in place; the only anchor of a subpath stays as it is. At most 32
 * subpaths and 512 anchors. Refuses 7, 5, 6, 9 at the anchor's place. */
uint32_t outline_auto_smooth(const uint32_t *shapes, size_t shapes_len, double *anchors, size_t anchors_len,
                             size_t s, size_t k, outline_answer *answer);

/* The segment from anchor a of subpath s to the next, bent in place so that its point at t, clamped to 0.08..0.92, moves by (dx, dy);
 * where keep_smooth is not 0, smooth anchors stay smooth. A subpath of one anchor stays as it is. At most 32 subpaths and 512
 * anchors. Refuses 7, 5 (t, dx, dy at the anchor count), 6, 9 at the lower place that breaks the limit. */
uint32_t outline_bend_segment(const uint32_t *shapes, size_t shapes_len, double *anchors, size_t anchors_len,
                              size_t s, size_t a, double t, double dx, double dy, uint32_t keep_smooth,
                              outline_answer *answer);

/* The rectangle of which a and b are opposite corners, closed: 4 anchors, or 8 where the radius, at most half of either side, is
 * not below 1e-9. subpaths is 1, count the anchors. Refuses 5, 9, 8. */
uint32_t outline_rect(double ax, double ay, double bx, double by, double radius, uint32_t *to_shapes, size_t to_shapes_len,
                      double *to, size_t to_len, outline_answer *answer);

/* The ellipse that fills the box between a and b, closed, of 4 anchors. Refuses 5, 9, 8. */
uint32_t outline_ellipse(double ax, double ay, double bx, double by, uint32_t *to_shapes, size_t to_shapes_len,
                         double *to, size_t to_len, outline_answer *answer);

/* The line from a to b, open, of 2 anchors. Refuses 5, 8; its 9 cannot occur. */
uint32_t outline_line(double ax, double ay, double bx, double by, uint32_t *to_shapes, size_t to_shapes_len,
                      double *to, size_t to_len, outline_answer *answer);

/* A job file, of any length, read into a drawing's lists: a word a subpath, six numbers and a radius an anchor. The four words of
 * the answer are here place, the anchors, the subpaths, and the kind (outline_kind). Refuses 1 (the length is no multiple of 4, no
 * end word, a word after it), 2 (a word of unknown kind, out of order or with a payload that is not listed), 3 (the end word with
 * no subpath), 4 (anchor 513 or subpath 33), each at a word's index, then 8. */
uint32_t outline_read(const uint8_t *bytes, size_t bytes_len, uint32_t *shapes, size_t shapes_len,
                      double *anchors, size_t anchors_len, double *radii, size_t radii_len, outline_answer *answer);

/* What the program patch prints for a job file, less the newline: SVG path data, or "refused N P". Answers how many bytes of line
 * were written, at most 65,536; those past them keep their bits. */
size_t outline_print(const uint8_t *job, size_t job_len, uint8_t line[65536]);

#ifdef __cplusplus
}
#endif

#endif
