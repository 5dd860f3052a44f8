/* The functions of libp3p.a (`rt lib` in crates/p3p), for C and C++ on x86-64 Linux.
 *
 * Each function's result, and what it leaves in the memory that is lent to it, is proved equal to a
 * definition for every input, infinities and NaNs too (crates/p3p). None allocates or keeps state:
 * each may be called from several threads at once. A solve was measured to take 4.8 KiB of stack at
 * most (docs/BENCHMARKS.md); the others take less. Under lazy binding the first call takes the
 * loader's 1 to 3 KiB more: link with -Wl,-z,now.
 *
 * The floating-point environment must be as C starts a program:
 *   - The rounding mode is to nearest.
 *   - Flush-to-zero and denormals-are-zero are off. With them some inputs get another answer or
 *     refusal, and nothing tells so. A program that is linked with -ffast-math or -Ofast turns both
 *     on before main (crtfastmath.o); so does, of GCC before 13, a shared library that is loaded.
 *   - Traps are masked. The functions raise IEEE 754's exception flags, where they answer too: with
 *     traps unmasked (feenableexcept) a solve can stop the program.
 *
 * A pointer is to as many elements as its declaration says. Those that a function writes through
 * must not overlap each other or what it reads. Where a number is returned, 0 means that there is
 * an answer; any other is one of enum p3p_refusal, and nothing has been written, but for the edges
 * of p3p_plate_preview.
 */
#ifndef P3P_H
#define P3P_H

#include <stddef.h>
#include <stdint.h>

#define P3P_VERSION "0.3.3"
#define P3P_VERSION_MAJOR 0
#define P3P_VERSION_MINOR 3
#define P3P_VERSION_PATCH 3

#ifdef __cplusplus
extern "C" {
#endif

/* Why there is no answer. */
enum p3p_refusal {
    /* solve: one of the eighteen doubles is an infinity or a NaN; about the first target also a
     * difference. plate_make, plate_replace, plate_preview: a coordinate of a given point is */
    P3P_INPUT_NOT_FINITE = 1,
    /* solve: no ordering of the points is usable */
    P3P_NO_USABLE_ORDERING = 2,
    /* solve: no pose was kept */
    P3P_NO_POSE = 3,
    /* quadratic, cubic: a coefficient is an infinity or a NaN */
    P3P_COEFFICIENT_NOT_FINITE = 4,
    /* quadratic: the discriminant is negative by more than rounding, or not finite */
    P3P_NO_REAL_ROOTS = 5,
    /* cubic: no root was found */
    P3P_NO_ROOT = 6,
    /* read_record: the length is not 193 */
    P3P_RECORD_LENGTH = 7,
    /* read_record: the version is not 1 */
    P3P_RECORD_VERSION = 8,
    /* read_record: bytes of the record are missing */
    P3P_RECORD_CUT_SHORT = 9,
    /* choose: no pose has a finite score, as where each puts the target behind the camera */
    P3P_NO_FINITE_SCORE = 10,
    /* plate_replace, plate_exchange, plate_preview: a target's number is above 2 */
    P3P_NO_SUCH_TARGET = 11,
    /* plate_scale: k is not from -64 to 64 */
    P3P_POWER_OUT_OF_RANGE = 12,
    /* plate_scale: a coordinate is an infinity or a NaN, or its exact scaled value has a magnitude
     * of 2^1024 or more, or is not zero and has one below 2^-1022 */
    P3P_COORDINATE_OUT_OF_RANGE = 13
};

/* ---- the three-point pose solver */

/* The poses from which three world points are seen at three bearings.
 *
 * input    three world points and then the three bearings to them, each x, y, z. The bearings are
 *          to be unit vectors, normalised in double: the further their lengths are off, the more
 *          are refused and the worse are the answers (docs/USING.md).
 * poses    four slots of twelve: the rotation by columns (m00 m10 m20 m01 m11 m21 m02 m12 m22) and
 *          the translation x, y, z, from world to camera. Slots from *count on hold plus zeros.
 * updates  of each slot, how many times its depths were refined: 0 to 5.
 * lifted   of each slot, 1 where the pose came from a pair of roots whose discriminant was below
 *          zero, within rounding, and was lifted to zero: two poses have come together as one,
 *          which stands twice; else 0, and 0 from *count on. What to make of it is in
 *          docs/USING.md.
 * count    how many slots hold a pose: 1 to 4.
 * Returns 0, or 1, 2 or 3. */
uint32_t p3p_solve(const double input[18], double poses[48], uint32_t updates[4],
                   uint32_t lifted[4], uint32_t *count);

/* The pose under which a fourth target lies before the camera and nearest to its bearing. A pose
 * has a score only where camera . bearing, as computed, is above zero: |camera x bearing|^2 /
 * (camera . bearing)^2. The lowest finite score wins, of equal ones the earliest.
 *
 * poses    slots as p3p_solve writes them.
 * count    how many of them hold a pose; above 4 it is read as 4.
 * best     the number of the slot, from 1.
 * score    its score: the squared tangent of the angle between the target and its bearing. The
 *          angle is atan(sqrt(score)), in radians. The choice is the best of the poses and need not
 *          be good: that the angle is within your measuring error is yours to ask.
 * Returns 0, or 10. */
uint32_t p3p_choose(const double poses[48], uint32_t count, const double target[3],
                    const double bearing[3], uint32_t *best, double *score);

/* ---- the same about the first target: for coordinates many kilometres from zero, as on grid jobs
 *      (docs/USING.md) */

/* The poses from which three world points are seen, about the first of them: it is subtracted from
 * all three, one rounding a coordinate, and the differences are solved as p3p_solve does.
 *
 * input, updates, lifted, count    as for p3p_solve.
 * poses    as for p3p_solve, but they take x - origin to the camera, and not x: the camera point of
 *          a world point is rotation * (x - origin) + translation. Subtract first.
 * origin   the subtracted point, the first of the input.
 * Returns 0, or 1, 2 or 3; 1 also where a difference is not finite. */
uint32_t p3p_solve_about(const double input[18], double poses[48], uint32_t updates[4],
                         uint32_t lifted[4], uint32_t *count, double origin[3]);

/* The choice of p3p_choose among poses of p3p_solve_about. `target` is the checking target as it
 * is: the origin is subtracted here.
 *
 * origin   as p3p_solve_about wrote it.
 * The others are as for p3p_choose. Returns 0, or 10; 10 also where a difference is not finite. */
uint32_t p3p_choose_about(const double poses[48], uint32_t count, const double origin[3],
                          const double target[3], const double bearing[3], uint32_t *best,
                          double *score);

/* ---- a plate that serves many frames: what a solve works out from the three world points alone is
 *      worked out once and stored with them (docs/USING.md)
 *
 * A plate is twenty-one doubles and a number, in memory of yours.
 *
 * plate        the three world points, each x, y, z; from 9 on the squared edges between targets 0
 *              and 1, 0 and 2, 1 and 2; from 12 on, by columns, the inverse of the matrix whose
 *              columns are p0 - p1, p0 - p2 and their cross product, or nine plus zeros where it
 *              has none, as where the points lie in a line.
 * has_inverse  1 where there is an inverse, else 0. Where it is read, any other number than 0
 *              counts as 1.
 *
 * Targets have the numbers 0, 1 and 2. What p3p_plate_make, _replace, _exchange and _scale store
 * is, bit for bit, worked out from the points that they store, whatever the plate held before; a
 * squared edge that overflows is stored as infinite, and nothing is refused for it. A refusal of
 * theirs writes nothing: the plate is as it was. */

/* The plate of three points, each x, y, z. Returns 0, or 1. */
uint32_t p3p_plate_make(const double points[9], double plate[21], uint32_t *has_inverse);

/* Puts one target of a plate at another point. The plate's other points are not asked about: a NaN
 * in them stays. Returns 0, or 1 where the given point is not finite, or 11; 1 is asked first. */
uint32_t p3p_plate_replace(double plate[21], uint32_t *has_inverse, uint32_t target,
                           const double point[3]);

/* Puts each of two targets of a plate in the other's place. A target may be exchanged with itself:
 * the points stay, and the stored numbers are worked out anew. Returns 0, or 11. */
uint32_t p3p_plate_exchange(double plate[21], uint32_t *has_inverse, uint32_t first,
                            uint32_t second);

/* Multiplies all coordinates of a plate by 2^k, which is exact; zeros keep their sign. With k = 0
 * the points stay, and the stored numbers are worked out anew, but a subnormal coordinate is 13
 * then too. Returns 0, or 12, or 13; 12 is asked first. */
uint32_t p3p_plate_scale(double plate[21], uint32_t *has_inverse, int32_t k);

/* The poses from which the targets of a plate are seen at three bearings. Of a plate that the
 * functions above have written it is, bit for bit, what p3p_solve gives of the plate's points and
 * the bearings, the refusals too.
 *
 * plate, has_inverse    also as they were kept elsewhere, in a file say, and brought back. They are
 *          taken as they are. Where they are not those of the plate's points: the stored squared
 *          edges serve every ordering of the targets; the stored inverse, or its lack, serves the
 *          given ordering alone, and the others make theirs from the points; the first question,
 *          whose refusal is 1, looks at the points and the bearings alone.
 *          p3p_plate_exchange(plate, &has_inverse, 0, 0) works the stored numbers out anew.
 * bearings the directions to targets 0, 1 and 2, each x, y, z, of unit length as for p3p_solve.
 * poses, updates, lifted, count    as for p3p_solve.
 * Returns 0, or 1, 2 or 3. */
uint32_t p3p_plate_solve(const double plate[21], uint32_t has_inverse, const double bearings[9],
                         double poses[48], uint32_t updates[4], uint32_t lifted[4],
                         uint32_t *count);

/* What p3p_plate_solve would give if a target of the plate were at another point, and the squared
 * edges that would be stored. The plate is only read. The replacement's questions are asked first,
 * then the solve's. Where the replacement is not refused, p3p_plate_replace and then
 * p3p_plate_solve give just what was shown, bit for bit but for NaNs among the edges, and the
 * solve's refusal too; and whatever squared edges and inverse the plate holds, the answer is what
 * p3p_solve gives of its points, the new one among them, and the bearings.
 *
 * target   the number of the target, 0, 1 or 2.
 * point    where it would be, x, y, z.
 * bearings, poses, updates, lifted, count    as for p3p_plate_solve.
 * edges    the squared edges between targets 0 and 1, 0 and 2, 1 and 2. They are always written:
 *          three plus zeros where the replacement is refused, and where the solve alone refuses,
 *          those that would be stored.
 * Returns 0; or 1 where the new point is not finite, or 11; or 1, 2 or 3 of the solve. */
uint32_t p3p_plate_preview(const double plate[21], uint32_t has_inverse, uint32_t target,
                           const double point[3], const double bearings[9], double poses[48],
                           uint32_t updates[4], uint32_t lifted[4], uint32_t *count,
                           double edges[3]);

/* ---- a frame's record */

/* The bytes of a record, all big-endian: two of length (193), one of version (1), 24 doubles. */
#define P3P_RECORD_SIZE 195

/* The frame of the record at the start of some bytes.
 *
 * bytes    the input from the record on.
 * length   how many of its bytes are left; no byte beyond them is read, and none beyond
 *          P3P_RECORD_SIZE.
 * frame    three world points and the three bearings to them, as p3p_solve takes them; from 18 on
 *          the checking target, and from 21 on its bearing, as p3p_choose takes them.
 * Returns 0, or 7, 8 or 9. The next record begins P3P_RECORD_SIZE bytes on after 0 and after 8;
 * after 7 and 9 nobody knows where. A length of 0 is 9 too: that the input has ended is yours to
 * see. */
uint32_t p3p_read_record(const uint8_t *bytes, size_t length, double frame[24]);

/* ---- root finders */

/* The two real roots of x^2 + b*x + c, not sorted; where the discriminant is zero, or below it by
 * no more than rounding, -b/2 twice. Returns 0, or 4 or 5. */
uint32_t p3p_quadratic(double b, double c, double *first, double *second);

/* The kind of a quadratic's pair, by its discriminant as computed. */
enum p3p_kind {
    /* above zero */
    P3P_TWO_ROOTS = 0,
    /* exactly zero: one root, twice */
    P3P_ZERO_DISCRIMINANT = 1,
    /* below zero by no more than rounding, and lifted to zero: one root, twice */
    P3P_LIFTED = 2
};

/* The same roots, and in *kind one of enum p3p_kind. Returns 0, or 4 or 5. */
uint32_t p3p_quadratic_kind(double b, double c, double *first, double *second, uint32_t *kind);

/* One real root of x^3 + b*x^2 + c*x + d, polished by Newton's method. Returns 0, or 4 or 6. */
uint32_t p3p_cubic(double b, double c, double d, double *root);

/* The approximate cube root from which the cubic starts: two steps of Halley's method, or the cube
 * root where these would leave the normal range. Of minus zero it is plus zero. */
double p3p_fast_cbrt(double x);

/* ---- single operations. A NaN that comes out has no promised sign or payload. */

/* The square root, rounded to nearest; of minus zero minus zero, of other negatives NaN. */
double p3p_sqrt(double x);

/* The cube root, rounded to nearest, ties to even; zeros, infinities and NaN return themselves. */
double p3p_cbrt(double x);

/* x * y + z with one rounding: IEEE 754 fusedMultiplyAdd. */
double p3p_fma(double x, double y, double z);

/* The magnitude of x with the sign of y, plus where y is a NaN. */
double p3p_copysign(double x, double y);

/* The greater of two numbers; a NaN beside a number is skipped, and plus zero is above minus
 * zero. */
double p3p_max(double x, double y);

/* -1, 0 or 1 where x is below y, equal to it or above it, by IEEE 754 totalOrder on numbers. NaN is
 * above every number and equal to NaN. */
int32_t p3p_total_cmp(double x, double y);

#ifdef __cplusplus
}
#endif

#endif
