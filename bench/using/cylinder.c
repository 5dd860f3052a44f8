// What a camera on or near the danger cylinder brings, the upright cylinder through the circle of
// the plate's three targets: how often the chosen pose is lifted, how far it puts the hole off, and
// how often the score does not tell; with bearings as exact as doubles are, and with bearings that
// are off in direction by up to 10^-5 along each axis. Plates in metres, the three targets in a
// plane and no thin triangle; the camera half a metre to six metres off the plane, so far from the
// cylinder, inside or outside.
#include "measure.h"

enum { FRAMES = 20000 };
static const double NOISE = 1e-5;
// A hole that is far off, in millimetres, and a limit of the score: 0.5 mm at 2 m.
static const double FAR = 10, LIMIT = 6.25e-8;

static struct figures errors;
static long lifted_count, far_count, untold_count;

// The centre and the radius of the circle through three points of the plane z = 0.
static real circle(const double input[18], real centre[2]) {
    real ax = (real)input[3] - input[0], ay = (real)input[4] - input[1];
    real bx = (real)input[6] - input[0], by = (real)input[7] - input[1];
    real a = ax * ax + ay * ay, b = bx * bx + by * by, twice = 2 * (ax * by - ay * bx);
    real x = (by * a - ay * b) / twice, y = (ax * b - bx * a) / twice;
    centre[0] = input[0] + x;
    centre[1] = input[1] + y;
    return sqrtl(x * x + y * y);
}

// The targets, in a plane.
static void random_targets(uint64_t *state, double input[18]) {
    for (int i = 0; i < 9; i++)
        input[i] = i % 3 == 2 ? 0 : whole(state, -4000, 4000) / 10000;
}

// A camera so many metres from the cylinder, and what it sees.
static void make_frame(uint64_t *state, double distance, struct plate *plate) {
    real columns[3][3], camera[3], centre[2];
    double angle = range(state, 0, 2 * 3.14159265358979323846), points[POINTS][3];
    do
        random_targets(state, plate->input);
    while (is_thin(plate));
    real radius = circle(plate->input, centre) + sign(state) * distance;
    rotation(state, columns);
    camera[0] = centre[0] + radius * cosl(angle);
    camera[1] = centre[1] + radius * sinl(angle);
    camera[2] = -range(state, 0.5, 6);
    memcpy(points, plate->input, TARGETS * sizeof *points);
    for (int index = TARGETS; index < POINTS; index++)
        for (int k = 0; k < 3; k++)
            points[index][k] = whole(state, k == 2 ? -60 : -4000, k == 2 ? 60 : 4000) / 10000;
    plate->mm = 1000;
    for (int index = 0; index < POINTS; index++) {
        real off[3], seen[3];
        for (int k = 0; k < 3; k++)
            off[k] = points[index][k] - camera[k];
        for (int k = 0; k < 3; k++)
            seen[k] = columns[0][k] * off[0] + columns[1][k] * off[1] + columns[2][k] * off[2];
        enter(plate, index, points[index], seen);
    }
}

static void disturb(double f[3], uint64_t *state) {
    for (int i = 0; i < 3; i++)
        f[i] += range(state, -NOISE, NOISE);
    normalise(f);
}

// Notes how far the chosen pose puts the hole off, and whether it is lifted.
static void try_frame(const struct plate *plate) {
    double poses[48], score;
    uint32_t updates[4], lifted[4], count, best;
    if (p3p_solve(plate->input, poses, updates, lifted, &count) ||
        p3p_choose(poses, count, plate->target, plate->bearing, &best, &score))
        return;
    double error = error_of_pose(plate, poses + 12 * (best - 1));
    note(&errors, error);
    lifted_count += lifted[best - 1] != 0;
    far_count += error > FAR;
    untold_count += error > FAR && score < LIMIT;
}

static void print_row(double distance, int noisy) {
    uint64_t state = SEED, noise = SEED + 1;
    clear(&errors);
    lifted_count = far_count = untold_count = 0;
    for (long n = 0; n < FRAMES; n++) {
        struct plate plate;
        make_frame(&state, distance, &plate);
        for (int i = 0; noisy && i < TARGETS; i++)
            disturb(plate.input + 9 + 3 * i, &noise);
        if (noisy)
            disturb(plate.bearing, &noise);
        try_frame(&plate);
    }
    sort(&errors);
    printf("| %g |", distance * 1000);
    print_share(FRAMES - errors.count, FRAMES);
    print_share(lifted_count, FRAMES);
    print_quantile(&errors, 0.5);
    print_quantile(&errors, 0.99);
    print_share(far_count, FRAMES);
    print_share(untold_count, FRAMES);
    printf("\n");
}

int main(void) {
    static const double distances[] = {0.1, 0.01, 1e-3, 1e-4, 1e-6, 1e-8, 1e-10, 0};
    for (int noisy = 0; noisy < 2; noisy++) {
        printf("%sBearings %s:\n\n"
               "| off the cylinder, mm | no pose | lifted | hole off, mm: median | 99%% "
               "| more than 10 | .. with a score below %g |\n"
               "|---:|---:|---:|---:|---:|---:|---:|\n",
               noisy ? "\n" : "", noisy ? "off" : "exact", LIMIT);
        for (size_t i = 0; i < sizeof distances / sizeof *distances; i++)
            print_row(distances[i], noisy);
    }
    return 0;
}
