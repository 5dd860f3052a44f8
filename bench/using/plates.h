// Random plates whose pose is known, made as the realistic ones of reference/tools are
// (reference/tools/src/frames/scenes.rs): targets in a box of 0.8 m by 0.8 m by 12 mm, in metres to
// a tenth of a millimetre, or of 2 m by 2 m by 29 mm, in counts of 4,096 to the metre; at the
// shaft's own zero or at national grid offsets (x 200 to 800 km, y 3,000 to 6,000 km, z up to 4
// km); turned in any way, half a metre to six metres away. The hole is one more such point. The
// truth is kept in `real`, which has eleven bits more than a double on x86-64.
#include "../../include/p3p.h"
#include <math.h>
#include <string.h>

typedef long double real;

enum { TARGETS = 3, CHECK = 3, HOLE = 4, POINTS = 5 };

// The kinds of plates: the odd ones are in counts, the last two at grid offsets.
enum { KINDS = 4 };
static const char *const kind_names[KINDS] = {"metres", "counts", "metres, national grid",
                                              "counts, national grid"};

struct plate {
    double input[18];  // three targets and their bearings, as p3p_solve takes them
    double target[3];  // the checking target
    double bearing[3]; // its bearing
    double hole[3];    // in the world
    real hole_seen[3]; // where the true pose puts it before the camera
    double mm;         // millimetres in the world's unit
};

// ---- random numbers: splitmix64, so that a seed gives the same plates on every machine

static uint64_t word(uint64_t *state) {
    uint64_t z = *state += 0x9E3779B97F4A7C15u;
    z = (z ^ (z >> 30)) * 0xBF58476D1CE4E5B9u;
    z = (z ^ (z >> 27)) * 0x94D049BB133111EBu;
    return z ^ (z >> 31);
}

static double whole(uint64_t *state, int64_t low, int64_t high) {
    return (double)(low + (int64_t)(word(state) % (uint64_t)(high - low + 1)));
}

static double range(uint64_t *state, double low, double high) {
    return low + (high - low) * ((double)(word(state) >> 11) * 0x1p-53);
}

static double sign(uint64_t *state) { return word(state) & 1 ? 1 : -1; }

// ---- vectors

static real dot(const real a[3], const real b[3]) {
    return a[0] * b[0] + a[1] * b[1] + a[2] * b[2];
}

static void cross(const real a[3], const real b[3], real out[3]) {
    for (int i = 0; i < 3; i++)
        out[i] = a[(i + 1) % 3] * b[(i + 2) % 3] - a[(i + 2) % 3] * b[(i + 1) % 3];
}

static void minus(const double a[3], const double b[3], real out[3]) {
    for (int i = 0; i < 3; i++)
        out[i] = (real)a[i] - b[i];
}

static void unit(real a[3]) {
    real length = sqrtl(dot(a, a));
    for (int i = 0; i < 3; i++)
        a[i] /= length;
}

// What a caller is to do with each bearing before a solve.
static void normalise(double f[3]) {
    double length = sqrt(f[0] * f[0] + f[1] * f[1] + f[2] * f[2]);
    for (int i = 0; i < 3; i++)
        f[i] /= length;
}

static void direction(uint64_t *state, real out[3]) {
    do {
        for (int i = 0; i < 3; i++)
            out[i] = range(state, -1, 1);
    } while (dot(out, out) < 0.01 || dot(out, out) > 1);
    unit(out);
}

// A random rotation by columns.
static void rotation(uint64_t *state, real columns[3][3]) {
    real other[3];
    direction(state, columns[0]);
    do {
        direction(state, other);
        cross(columns[0], other, columns[2]);
    } while (dot(columns[2], columns[2]) < 0.01);
    unit(columns[2]);
    cross(columns[2], columns[0], columns[1]);
}

// ---- plates

struct pose {
    real columns[3][3], shift[3];
};

static void random_pose(uint64_t *state, double per_metre, struct pose *pose) {
    rotation(state, pose->columns);
    pose->shift[2] = range(state, 0.5, 6) * per_metre;
    for (int k = 0; k < 2; k++)
        pose->shift[k] = range(state, -0.4, 0.4) * pose->shift[2];
}

static void random_offset(uint64_t *state, double per_metre, double offset[3]) {
    offset[0] = sign(state) * whole(state, 200000, 800000) * per_metre;
    offset[1] = sign(state) * whole(state, 3000000, 6000000) * per_metre;
    offset[2] = whole(state, 0, 4000) * per_metre;
}

// Enters a point that stands at `world` and is seen at `camera`.
static void enter(struct plate *plate, int index, const double world[3], const real camera[3]) {
    double bearing[3] = {camera[0], camera[1], camera[2]};
    normalise(bearing);
    if (index < TARGETS) {
        memcpy(plate->input + 3 * index, world, sizeof bearing);
        memcpy(plate->input + 9 + 3 * index, bearing, sizeof bearing);
    } else if (index == CHECK) {
        memcpy(plate->target, world, sizeof bearing);
        memcpy(plate->bearing, bearing, sizeof bearing);
    } else {
        memcpy(plate->hole, world, sizeof bearing);
        memcpy(plate->hole_seen, camera, sizeof plate->hole_seen);
    }
}

// Points are made in whole steps, of which the world's unit has `steps`.
static inline void make_plate(uint64_t *state, int kind, struct plate *plate) {
    int counts = kind % 2, grid = kind / 2;
    double per_metre = counts ? 4096 : 10000, steps = counts ? 1 : per_metre;
    double offset[3] = {0, 0, 0};
    struct pose pose;
    if (grid)
        random_offset(state, per_metre, offset);
    random_pose(state, per_metre, &pose);
    plate->mm = 1000 * steps / per_metre;
    for (int index = 0; index < POINTS; index++) {
        double point[3] = {whole(state, -4000, 4000), whole(state, -4000, 4000),
                           whole(state, -60, 60)};
        double world[3];
        real camera[3];
        for (int k = 0; k < 3; k++) {
            world[k] = (point[k] + offset[k]) / steps;
            camera[k] = pose.columns[0][k] * point[0] + pose.columns[1][k] * point[1];
            camera[k] = (camera[k] + pose.columns[2][k] * point[2] + pose.shift[k]) / steps;
        }
        enter(plate, index, world, camera);
    }
}

// Whether the height of the targets' triangle over its longest edge is below 0.3 of that edge.
static int is_thin(const struct plate *plate) {
    const double *p0 = plate->input, *p1 = p0 + 3, *p2 = p0 + 6;
    real edges[3][3], normal[3], longest = 0;
    minus(p1, p0, edges[0]);
    minus(p2, p0, edges[1]);
    minus(p2, p1, edges[2]);
    for (int i = 0; i < 3; i++)
        longest = fmaxl(longest, dot(edges[i], edges[i]));
    cross(edges[0], edges[1], normal);
    return sqrtl(dot(normal, normal)) < 0.3L * longest;
}
