// What the checking target tells: how often the pose that p3p_choose takes is the one that puts the
// hole nearest, its score, the least score of the other poses, and how far the hole is off; with
// bearings as exact as doubles are, and with bearings that are off in direction, as a camera's are.
// Plates in metres whose targets' triangle is not thin.
#include "measure.h"

static struct figures chosen, others, errors;

// Moves the bearing's end by up to so much along each axis.
static void disturb(double f[3], double amount, uint64_t *state) {
    for (int i = 0; i < 3; i++)
        f[i] += range(state, -amount, amount);
    normalise(f);
}

// The least score of the poses but the best, each chosen from alone; infinite where there is none.
static double least_other(const struct plate *plate, const double poses[48], uint32_t count,
                          uint32_t best) {
    double least = INFINITY, score, alone[48] = {0};
    uint32_t place;
    for (uint32_t k = 0; k < count; k++) {
        memcpy(alone, poses + 12 * k, 12 * sizeof *poses);
        if (k + 1 != best &&
            p3p_choose(alone, 1, plate->target, plate->bearing, &place, &score) == 0)
            least = fmin(least, score);
    }
    return least;
}

// Whether the pose that is taken is the nearest one.
static int try_plate(const struct plate *plate) {
    double poses[48], score;
    uint32_t updates[4], lifted[4], count, best;
    if (p3p_solve(plate->input, poses, updates, lifted, &count) ||
        p3p_choose(poses, count, plate->target, plate->bearing, &best, &score))
        return 0;
    note(&chosen, score);
    note(&errors, error_of_pose(plate, poses + 12 * (best - 1)));
    double other = least_other(plate, poses, count, best);
    if (other < INFINITY)
        note(&others, other);
    return best == nearest(plate, poses, count) + 1;
}

static void print_row(double amount) {
    uint64_t state = SEED, noise = SEED + 1;
    long right = 0;
    clear(&chosen);
    clear(&others);
    clear(&errors);
    for (long n = 0; n < PLATES; n++) {
        struct plate plate;
        make_plate(&state, 0, &plate);
        for (int i = 0; i < TARGETS; i++)
            disturb(plate.input + 9 + 3 * i, amount, &noise);
        disturb(plate.bearing, amount, &noise);
        if (is_thin(&plate))
            continue;
        chosen.plates++;
        right += try_plate(&plate);
    }
    sort(&chosen);
    sort(&others);
    sort(&errors);
    printf("| %g |", amount);
    print_share(right, chosen.plates);
    print_quantile(&chosen, 0.5);
    print_quantile(&chosen, 0.99);
    print_quantile(&chosen, 0.999);
    print_quantile(&others, 0.01);
    print_quantile(&others, 0.5);
    print_quantile(&errors, 0.5);
    print_quantile(&errors, 0.99);
    printf("\n");
}

int main(void) {
    printf("| bearings off by | nearest chosen | score, median | 99%% | 99.9%% "
           "| least other score, 1%% | median | hole off, median, mm | 99%%, mm |\n"
           "|---:|---:|---:|---:|---:|---:|---:|---:|---:|\n");
    const double amounts[] = {0, 1e-7, 1e-6, 1e-5, 1e-4};
    for (size_t r = 0; r < sizeof amounts / sizeof *amounts; r++)
        print_row(amounts[r]);
    printf("\n%ld plates a row.\n", chosen.plates);
    return 0;
}
