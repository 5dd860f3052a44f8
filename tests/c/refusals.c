/* Every refusal by a call, and that a refused call has written nothing, but for a preview's edges.
 * Memory is filled with a pattern before each call; an answered call must have changed it, so that
 * the comparison is known to see a write. A preview must leave what replacing on a copy and solving
 * with it leave, write the edges in any case, and write to nothing that it only reads. Prints how
 * many of the calls went wrong.
 *   refusals [CHANGE]
 * CHANGE: an expectation that is changed, which must be found wrong. `number`: each call returns
 * one more. Of previews: `edges`, the first of the squared edges has the other sign; `poses`, the
 * solve has left another first number; `given`, what was only read was another before. */
#include "p3p.h"
#include <float.h>
#include <math.h>
#include <stddef.h>
#include <stdio.h>
#include <string.h>

enum { PATTERN = 0xa5 };

/* All memory that is lent to be written. */
static struct {
    double poses[48], origin[3], first, second, root, score, frame[24], plate[21];
    uint32_t updates[4], lifted[4], count, best, kind, has_inverse;
} lent;

static uint32_t calls, previews, wrong, added;
static const char *change = "";

static int is_changed(const char *expectation)
{
    return strcmp(change, expectation) == 0;
}

static int untouched(void)
{
    const unsigned char *bytes = (const unsigned char *)&lent;
    for (size_t i = 0; i < sizeof lent; i++)
        if (bytes[i] != PATTERN)
            return 0;
    return 1;
}

static void expect(const char *call, uint32_t expected, uint32_t number)
{
    calls++;
    if (number != expected + added || untouched() != (number != 0)) {
        wrong++;
        if (*change == 0)
            printf("%s: %u in place of %u, memory %s\n", call, number, expected,
                   untouched() ? "as it was" : "written");
    }
    memset(&lent, PATTERN, sizeof lent);
}

static uint32_t solve(const double input[18])
{
    return p3p_solve(input, lent.poses, lent.updates, lent.lifted, &lent.count);
}

static uint32_t solve_about(const double input[18])
{
    return p3p_solve_about(input, lent.poses, lent.updates, lent.lifted, &lent.count, lent.origin);
}

/* The bearings from a camera that sees each of three points, unturned, two metres nearer. */
static void see(const double points[9], double bearings[9])
{
    for (int k = 0; k < 3; k++) {
        double x = points[3 * k], y = points[3 * k + 1], z = points[3 * k + 2] + 2;
        double length = p3p_sqrt(x * x + y * y + z * z);
        bearings[3 * k] = x / length;
        bearings[3 * k + 1] = y / length;
        bearings[3 * k + 2] = z / length;
    }
}

static void solves(void)
{
    const double axes[9] = {1, 0, 0, 0, 1, 0, 0, 0, 1}, line[9] = {0, 0, 0, 1, 0, 0, 2, 0, 0};
    const double plate[9] = {0, 0, 0, 0.4, 0, 0, 0, 0.3, 0.05};
    double input[18];
    memcpy(input, axes, sizeof axes);
    memcpy(input + 9, axes, sizeof axes);
    expect("solve, the axes", P3P_NO_USABLE_ORDERING, solve(input));
    expect("solve_about, the axes", P3P_NO_USABLE_ORDERING, solve_about(input));
    input[17] = INFINITY;
    expect("solve, an infinity", P3P_INPUT_NOT_FINITE, solve(input));
    input[17] = NAN;
    expect("solve, a NaN", P3P_INPUT_NOT_FINITE, solve(input));
    expect("solve_about, a NaN", P3P_INPUT_NOT_FINITE, solve_about(input));
    input[17] = 1;
    memcpy(input, line, sizeof line);
    expect("solve, points on a line", P3P_NO_POSE, solve(input));
    expect("solve_about, points on a line", P3P_NO_POSE, solve_about(input));
    memcpy(input, plate, sizeof plate);
    see(plate, input + 9);
    expect("solve, a plate", 0, solve(input));
    expect("solve_about, a plate", 0, solve_about(input));
    input[0] = -1e308;
    input[3] = 1e308;
    expect("solve_about, a difference overflows", P3P_INPUT_NOT_FINITE, solve_about(input));
}

/* Plates. The operations' plate is the pattern, or one that was made into the lent memory: then a
 * copy of it tells what was written. */

static double made[21];
static uint32_t made_inverse;

static uint32_t make(const double points[9])
{
    return p3p_plate_make(points, lent.plate, &lent.has_inverse);
}

static uint32_t replace(uint32_t target, double x)
{
    const double point[3] = {x, 0.5, 0.25};
    return p3p_plate_replace(lent.plate, &lent.has_inverse, target, point);
}

static uint32_t exchange(uint32_t first, uint32_t second)
{
    return p3p_plate_exchange(lent.plate, &lent.has_inverse, first, second);
}

static uint32_t scale(int32_t k)
{
    return p3p_plate_scale(lent.plate, &lent.has_inverse, k);
}

/* Puts a plate into the lent memory, with its first coordinate changed. */
static void place(double x)
{
    memcpy(lent.plate, made, sizeof made);
    lent.plate[0] = x;
    lent.has_inverse = 7; /* as good as 1, and not what an operation writes */
}

/* What an operation did to a plate that was placed: it must be as it was after a refusal, and have
 * the inverse written after an answer. */
static void expect_placed(const char *call, uint32_t expected, double x, uint32_t number)
{
    double old[21];
    memcpy(old, made, sizeof made);
    old[0] = x;
    calls++;
    if (number != expected + added
        || (number != 0) != (lent.has_inverse == 7 && memcmp(old, lent.plate, sizeof old) == 0)) {
        wrong++;
        if (*change == 0)
            printf("%s: %u in place of %u\n", call, number, expected);
    }
    memset(&lent, PATTERN, sizeof lent);
}

static uint32_t solve_plate(double x, uint32_t has_inverse, const double bearings[9])
{
    double plate[21];
    memcpy(plate, made, sizeof made);
    plate[0] = x;
    return p3p_plate_solve(plate, has_inverse, bearings, lent.poses, lent.updates, lent.lifted,
                           &lent.count);
}

static void operations(void)
{
    const double points[9] = {0, 0, 0, 0.4, 0, 0, 0, 0.3, 0.05};
    const double infinite[9] = {0, 0, 0, 0.4, 0, 0, 0, 0.3, INFINITY};
    const double least = DBL_MIN, most = 2 / DBL_MIN; /* 2^-1022, 2^1023 */
    expect("plate_make, an infinity", P3P_INPUT_NOT_FINITE, make(infinite));
    expect("plate_make, a plate", 0, make(points));
    p3p_plate_make(points, made, &made_inverse);
    place(0);
    expect_placed("plate_replace, a NaN, and no target", P3P_INPUT_NOT_FINITE, 0, replace(3, NAN));
    place(0);
    expect_placed("plate_replace, no target", P3P_NO_SUCH_TARGET, 0, replace(3, 1));
    place(NAN);
    expect_placed("plate_replace beside a NaN", 0, NAN, replace(2, 1));
    place(0);
    expect_placed("plate_exchange, no first", P3P_NO_SUCH_TARGET, 0, exchange(4000000000u, 0));
    place(0);
    expect_placed("plate_exchange, no second", P3P_NO_SUCH_TARGET, 0, exchange(2, 3));
    place(0);
    expect_placed("plate_exchange", 0, 0, exchange(0, 2));
    place(0);
    expect_placed("plate_exchange with itself", 0, 0, exchange(1, 1));
    place(NAN);
    expect_placed("plate_scale, 2^65 and a NaN", P3P_POWER_OUT_OF_RANGE, NAN, scale(65));
    place(0);
    expect_placed("plate_scale, 2^-65", P3P_POWER_OUT_OF_RANGE, 0, scale(-65));
    place(NAN);
    expect_placed("plate_scale, a NaN", P3P_COORDINATE_OUT_OF_RANGE, NAN, scale(64));
    place(most);
    expect_placed("plate_scale, to 2^1024", P3P_COORDINATE_OUT_OF_RANGE, most, scale(1));
    place(least);
    expect_placed("plate_scale, to 2^-1023", P3P_COORDINATE_OUT_OF_RANGE, least, scale(-1));
    place(least / 2);
    expect_placed("plate_scale, a subnormal by 1", P3P_COORDINATE_OUT_OF_RANGE, least / 2,
                  scale(0));
    place(least / 2);
    expect_placed("plate_scale, a subnormal to 2^-1022", 0, least / 2, scale(1));
    place(-0.0);
    expect_placed("plate_scale", 0, -0.0, scale(-64));
}

static void plate_solves(void)
{
    double bearings[9];
    see(made, bearings);
    expect("plate_solve", 0, solve_plate(0, made_inverse, bearings));
    expect("plate_solve, inverse by another number", 0, solve_plate(0, 1u << 31, bearings));
    expect("plate_solve, no inverse", P3P_NO_POSE, solve_plate(0, 0, bearings));
    expect("plate_solve, a point not finite", P3P_INPUT_NOT_FINITE,
           solve_plate(INFINITY, made_inverse, bearings));
    made[12] = NAN; /* of the inverse, which the first question does not look at */
    expect("plate_solve, an inverse not finite", P3P_NO_POSE,
           solve_plate(0, made_inverse, bearings));
    made[9] = INFINITY; /* of the squared edges */
    expect("plate_solve, an edge not finite", P3P_NO_USABLE_ORDERING,
           solve_plate(0, made_inverse, bearings));
    bearings[8] = NAN;
    expect("plate_solve, a bearing not finite", P3P_INPUT_NOT_FINITE,
           solve_plate(0, made_inverse, bearings));
}

/* All that a preview only reads. */
struct given {
    double plate[21], point[3], bearings[9];
    uint32_t has_inverse, target;
};

/* What it leaves: a number, the memory of a solve, and the squared edges. */
struct shown {
    uint32_t number, updates[4], lifted[4], count;
    double poses[48], edges[3];
};

/* Bit for bit, but for NaNs among the edges, whose bits nobody promises. */
static int is_same(const struct shown *a, const struct shown *b)
{
    for (int i = 0; i < 3; i++)
        if (memcmp(&a->edges[i], &b->edges[i], sizeof a->edges[i]) != 0
            && !(isnan(a->edges[i]) && isnan(b->edges[i])))
            return 0;
    return memcmp(a, b, offsetof(struct shown, edges)) == 0;
}

static void show(const struct given *in, struct shown *out)
{
    out->number = p3p_plate_preview(in->plate, in->has_inverse, in->target, in->point,
                                    in->bearings, out->poses, out->updates, out->lifted,
                                    &out->count, out->edges);
}

/* The same by replacing the target on a copy and solving with it. */
static void replace_and_solve(const struct given *in, struct shown *out)
{
    struct given copy = *in;
    memset(out->edges, 0, sizeof out->edges);
    out->number = p3p_plate_replace(copy.plate, &copy.has_inverse, in->target, in->point);
    if (out->number != 0)
        return;
    memcpy(out->edges, copy.plate + 9, sizeof out->edges);
    out->number = p3p_plate_solve(copy.plate, copy.has_inverse, in->bearings, out->poses,
                                  out->updates, out->lifted, &out->count);
}

/* An expected preview with an expectation changed. */
static void change_expected(struct shown *expected, struct given *before)
{
    expected->number += added;
    if (is_changed("edges"))
        expected->edges[0] = -expected->edges[0];
    if (is_changed("poses"))
        expected->poses[0] = -expected->poses[0];
    if (is_changed("given"))
        before->plate[20] += 1;
}

/* A preview must leave what replacing and solving do, and what it reads as it was. It writes the
 * edges in any case, and all else only where it answers: what it left of the pattern tells. */
static void expect_preview(const char *call, uint32_t expected, struct given *in)
{
    struct given before;
    struct shown other, found;
    memcpy(&before, in, sizeof before);
    memset(&other, PATTERN, sizeof other);
    memset(&found, PATTERN, sizeof found);
    replace_and_solve(in, &other);
    show(in, &found);
    calls++;
    previews++;
    change_expected(&other, &before);
    if (found.number != expected + added || !is_same(&found, &other)
        || memcmp(in, &before, sizeof before) != 0) {
        wrong++;
        if (*change == 0)
            printf("%s: %u in place of %u, edges %g %g %g\n", call, found.number, expected,
                   found.edges[0], found.edges[1], found.edges[2]);
    }
}

/* For a preview of a plate of three points. */
static struct given give(const double points[9], uint32_t target, double x, double y, double z)
{
    struct given in;
    memset(&in, 0, sizeof in);
    p3p_plate_make(points, in.plate, &in.has_inverse);
    see(points, in.bearings);
    in.target = target;
    in.point[0] = x;
    in.point[1] = y;
    in.point[2] = z;
    return in;
}

static void plate_previews(void)
{
    const double points[9] = {0, 0, 0, 0.4, 0, 0, 0, 0.3, 0.05};
    const double axes[9] = {1, 0, 0, 0, 1, 0, 0, 0, 2};
    struct given in = give(points, 2, 0, 0.31, 0.06);
    expect_preview("plate_preview", 0, &in);
    in.plate[9] = INFINITY; /* of the squared edges, which are worked out anew */
    in.plate[12] = NAN;     /* of the inverse, likewise */
    expect_preview("plate_preview, other numbers stored", 0, &in);
    in.has_inverse = 0;
    expect_preview("plate_preview, no inverse stored", 0, &in);
    in.plate[6] = NAN; /* of the target that is replaced */
    expect_preview("plate_preview of a target not finite", 0, &in);
    in.target = 1;
    expect_preview("plate_preview beside a NaN", P3P_INPUT_NOT_FINITE, &in);
    in = give(points, 0, 0.01, 0, 0);
    expect_preview("plate_preview, the first target", 0, &in);
    in.bearings[8] = NAN;
    expect_preview("plate_preview, a bearing not finite", P3P_INPUT_NOT_FINITE, &in);
    in.target = 3;
    expect_preview("plate_preview, no target, a bearing not finite", P3P_NO_SUCH_TARGET, &in);
    in.target = 4000000000u;
    in.point[2] = -INFINITY;
    expect_preview("plate_preview, an infinity, and no target", P3P_INPUT_NOT_FINITE, &in);
    in = give(points, 2, 0, NAN, 0);
    expect_preview("plate_preview, a NaN", P3P_INPUT_NOT_FINITE, &in);
    in = give(points, 2, 1, 0, 0);
    expect_preview("plate_preview, points on a line", P3P_NO_POSE, &in);
    in = give(axes, 2, 0, 0, 1);
    memcpy(in.bearings, in.plate, sizeof in.bearings);
    in.bearings[8] = 1;
    expect_preview("plate_preview, the axes", P3P_NO_USABLE_ORDERING, &in);
}

/* four times the pose that moves nothing, about zero or about a point */
static uint32_t choose(uint32_t count, const double *origin, const double target[3],
                       const double bearing[3])
{
    const double pose[12] = {1, 0, 0, 0, 1, 0, 0, 0, 1, 0, 0, 0};
    double poses[48];
    for (int k = 0; k < 4; k++)
        memcpy(poses + 12 * k, pose, sizeof pose);
    if (origin == NULL)
        return p3p_choose(poses, count, target, bearing, &lent.best, &lent.score);
    return p3p_choose_about(poses, count, origin, target, bearing, &lent.best, &lent.score);
}

static void choices(void)
{
    const double ahead[3] = {0, 0, 1}, aside[3] = {1, 0, 0}, back[3] = {0, 0, -1};
    const double nowhere[3] = {NAN, 0, 0}, target[3] = {0, 0, 2}, beyond[3] = {0, 0, 4};
    const double far[3] = {0, 0, -1e308}, opposite[3] = {0, 0, 1e308};
    expect("choose, no pose", P3P_NO_FINITE_SCORE, choose(0, NULL, target, ahead));
    expect("choose, depth zero", P3P_NO_FINITE_SCORE, choose(4, NULL, target, aside));
    expect("choose, all behind", P3P_NO_FINITE_SCORE, choose(4, NULL, target, back));
    expect("choose, a NaN", P3P_NO_FINITE_SCORE, choose(4, NULL, target, nowhere));
    expect("choose, a pose", 0, choose(1, NULL, target, ahead));
    expect("choose, more than four", 0, choose(4000000000u, NULL, target, ahead));
    expect("choose_about, behind its origin", P3P_NO_FINITE_SCORE,
           choose(4, beyond, target, ahead));
    expect("choose_about, a difference overflows", P3P_NO_FINITE_SCORE,
           choose(4, far, opposite, ahead));
    expect("choose_about, a pose", 0, choose(4, target, beyond, ahead));
}

static uint32_t quadratic_kind(double b, double c)
{
    return p3p_quadratic_kind(b, c, &lent.first, &lent.second, &lent.kind);
}

static void roots(void)
{
    expect("quadratic, a NaN", P3P_COEFFICIENT_NOT_FINITE,
           p3p_quadratic(NAN, 1, &lent.first, &lent.second));
    expect("quadratic, x^2 + 1", P3P_NO_REAL_ROOTS,
           p3p_quadratic(0, 1, &lent.first, &lent.second));
    expect("quadratic, x^2 - 3x + 2", 0, p3p_quadratic(-3, 2, &lent.first, &lent.second));
    expect("quadratic_kind, an infinity", P3P_COEFFICIENT_NOT_FINITE, quadratic_kind(1, INFINITY));
    expect("quadratic_kind, x^2 + 1", P3P_NO_REAL_ROOTS, quadratic_kind(0, 1));
    expect("quadratic_kind, x^2 + 2x + 1", 0, quadratic_kind(2, 1));
    expect("cubic, an infinity", P3P_COEFFICIENT_NOT_FINITE,
           p3p_cubic(0, INFINITY, 0, &lent.root));
    expect("cubic, (x + 1)^3", P3P_NO_ROOT, p3p_cubic(3, 3, 1, &lent.root));
    expect("cubic, x^3 + x - 10", 0, p3p_cubic(0, 1, -10, &lent.root));
}

static void records(void)
{
    uint8_t bytes[P3P_RECORD_SIZE] = {0, 193, 1};
    for (size_t length = 0; length < sizeof bytes; length++)
        expect("record, cut short", P3P_RECORD_CUT_SHORT,
               p3p_read_record(bytes, length, lent.frame));
    expect("record, whole", 0, p3p_read_record(bytes, sizeof bytes, lent.frame));
    bytes[2] = 2;
    expect("record, version 2", P3P_RECORD_VERSION,
           p3p_read_record(bytes, sizeof bytes, lent.frame));
    bytes[1] = 194;
    expect("record, length 194", P3P_RECORD_LENGTH,
           p3p_read_record(bytes, sizeof bytes, lent.frame));
}

int main(int argc, char **argv)
{
    if (argc > 1)
        change = argv[1];
    added = is_changed("number") ? 1 : 0;
    memset(&lent, PATTERN, sizeof lent);
    solves();
    operations();
    plate_solves();
    plate_previews();
    choices();
    roots();
    records();
    printf("%u of %u calls wrong; previews: %u\n", wrong, calls, previews);
    return wrong == 0 ? 0 : 1;
}
