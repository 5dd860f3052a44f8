// What a solve makes of bearings that are not of unit length: of random plates of the four kinds in
// equal parts, how many are answered, how many so that a pose puts the hole within half a
// millimetre, and how far the hole is off by the pose nearest to it. The three bearings of a plate
// are spoilt each by itself.
#include "measure.h"

typedef void spoil(double f[3], double amount, uint64_t *state);

static void as_it_is(double f[3], double amount, uint64_t *state) {
    (void)f, (void)amount, (void)state;
}

// Longer or shorter by that part of the length, by chance.
static void off_length(double f[3], double amount, uint64_t *state) {
    double factor = 1 + sign(state) * amount;
    for (int i = 0; i < 3; i++)
        f[i] *= factor;
}

// Volatile, since gcc 12 at -O2 otherwise leaves the rounding of two of the entries out.
static void as_single(double f[3], double amount, uint64_t *state) {
    (void)amount, (void)state;
    for (int i = 0; i < 3; i++) {
        volatile float entry = (float)f[i];
        f[i] = entry;
    }
}

static void as_single_normalised(double f[3], double amount, uint64_t *state) {
    as_single(f, amount, state);
    normalise(f);
}

static void over_depth(double f[3], double amount, uint64_t *state) {
    (void)amount, (void)state;
    double depth = fabs(f[2]);
    for (int i = 0; i < 3; i++)
        f[i] /= depth;
}

static const struct row {
    const char *name;
    spoil *spoil;
    double amount;
} rows[] = {
    {"normalised in double", as_it_is, 0},
    {"length off by 1e-12", off_length, 1e-12},
    {"length off by 1e-10", off_length, 1e-10},
    {"length off by 1e-9", off_length, 1e-9},
    {"length off by 1e-8", off_length, 1e-8},
    {"length off by 1e-7", off_length, 1e-7},
    {"length off by 1e-6", off_length, 1e-6},
    {"length off by 1e-5", off_length, 1e-5},
    {"stored as f32", as_single, 0},
    {"stored as f32, then normalised in double", as_single_normalised, 0},
    {"(x/z, y/z, 1), not normalised", over_depth, 0},
};

// Of all plates, and of those whose targets' triangle is not thin.
static struct figures all, sound;

static void try_plate(const struct plate *plate, const struct row *row, uint64_t *state) {
    double input[18], poses[48];
    uint32_t updates[4], lifted[4], count;
    int thin = is_thin(plate);
    memcpy(input, plate->input, sizeof input);
    for (int i = 0; i < TARGETS; i++)
        row->spoil(input + 9 + 3 * i, row->amount, state);
    all.plates++;
    sound.plates += !thin;
    if (p3p_solve(input, poses, updates, lifted, &count))
        return;
    double error = error_of_pose(plate, poses + 12 * nearest(plate, poses, count));
    note(&all, error);
    if (!thin)
        note(&sound, error);
}

static void print_figures(struct figures *figures) {
    long within = 0;
    sort(figures);
    while (within < figures->count && figures->values[within] <= 0.5)
        within++;
    print_share(figures->count, figures->plates);
    print_share(within, figures->plates);
    print_quantile(figures, 0.5);
    print_quantile(figures, 1);
}

static void print_row(const struct row *row) {
    uint64_t state = SEED, signs = SEED + 1;
    clear(&all);
    clear(&sound);
    for (long n = 0; n < PLATES; n++) {
        struct plate plate;
        make_plate(&state, (int)(n % KINDS), &plate);
        try_plate(&plate, row, &signs);
    }
    printf("| %s |", row->name);
    print_figures(&all);
    print_figures(&sound);
    printf("\n");
}

int main(void) {
    printf("| bearings | answered | within 0.5 mm | median, mm | most, mm "
           "| not thin: answered | within 0.5 mm | median, mm | most, mm |\n"
           "|---|---:|---:|---:|---:|---:|---:|---:|---:|\n");
    for (size_t r = 0; r < sizeof rows / sizeof *rows; r++)
        print_row(&rows[r]);
    printf("\n%d plates a row, of which %ld are not thin.\n", PLATES, sound.plates);
    return 0;
}
