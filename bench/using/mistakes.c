// What mistakes look like: of random plates with one made on purpose, how many are refused with
// which number, and of how many of those answered the choice tells: it refuses, or its score is
// above that of a target half a millimetre off its bearing. Plates in metres whose targets'
// triangle is not thin, bearings exact.
#include "measure.h"

typedef void mistake(struct plate *plate);

static void swap(double a[3], double b[3]) {
    double kept[3];
    memcpy(kept, a, sizeof kept);
    memcpy(a, b, sizeof kept);
    memcpy(b, kept, sizeof kept);
}

static void none(struct plate *plate) { (void)plate; }

static void exchanged_targets(struct plate *plate) { swap(plate->input, plate->input + 3); }

static void exchanged_with_check(struct plate *plate) { swap(plate->input, plate->target); }

static void wrong_check(struct plate *plate) { swap(plate->target, plate->hole); }

static void target_entered_twice(struct plate *plate) {
    memcpy(plate->input, plate->input + 3, 3 * sizeof *plate->input);
}

static void bearing_entered_twice(struct plate *plate) {
    memcpy(plate->input + 9, plate->input + 12, 3 * sizeof *plate->input);
}

static void in_a_line(struct plate *plate) {
    for (int i = 0; i < 3; i++)
        plate->input[i] = 2 * plate->input[3 + i] - plate->input[6 + i];
}

// One target is a centimetre from where the plate's drawing has it.
static void moved_target(struct plate *plate) { plate->input[0] += 0.01; }

static void mirrored(struct plate *plate) {
    for (int i = 9; i < 18; i += 3)
        plate->input[i] = -plate->input[i];
    plate->bearing[0] = -plate->bearing[0];
}

static void reversed_bearing(struct plate *plate) {
    for (int i = 9; i < 12; i++)
        plate->input[i] = -plate->input[i];
}

static void scale(struct plate *plate, double factor) {
    for (int i = 0; i < 9; i++)
        plate->input[i] *= factor;
    for (int i = 0; i < 3; i++)
        plate->target[i] *= factor;
    plate->mm /= factor;
}

static void very_large(struct plate *plate) { scale(plate, 1e30); }

static void very_small(struct plate *plate) { scale(plate, 1e-30); }

static void too_large(struct plate *plate) { scale(plate, 1e45); }

static void too_small(struct plate *plate) { scale(plate, 1e-45); }

static void not_a_number(struct plate *plate) { plate->input[9] = NAN; }

static const struct row {
    const char *name;
    mistake *make;
} rows[] = {
    {"none", none},
    {"two targets exchanged", exchanged_targets},
    {"a target exchanged with the checking target", exchanged_with_check},
    {"another point for the checking target", wrong_check},
    {"a target 10 mm off its place", moved_target},
    {"a target entered twice", target_entered_twice},
    {"a bearing entered twice", bearing_entered_twice},
    {"targets in a line", in_a_line},
    {"one bearing reversed", reversed_bearing},
    {"x of every bearing reversed", mirrored},
    {"none, the plate 1e30 times as large", very_large},
    {"none, the plate 1e-30 times as large", very_small},
    {"the plate 1e45 times as large", too_large},
    {"the plate 1e-45 times as large", too_small},
    {"a NaN", not_a_number},
};

// Of the plates tried, how many were refused with each number (0: answered), and how many the
// choice told of.
struct counts {
    long plates, refused[4], told;
};

// Whether no pose is chosen, or the chosen one has the checking target half a millimetre or more
// off its bearing.
static int tells(const struct plate *plate, const double poses[48], uint32_t count) {
    uint32_t best;
    double score, camera[3], depth = 0;
    if (p3p_choose(poses, count, plate->target, plate->bearing, &best, &score))
        return 1;
    apply(poses + 12 * (best - 1), plate->target, camera);
    for (int i = 0; i < 3; i++)
        depth += camera[i] * plate->bearing[i];
    return sqrt(score) * depth * plate->mm >= 0.5;
}

static void try_plate(struct plate *plate, mistake *make, struct counts *counts) {
    double poses[48];
    uint32_t updates[4], lifted[4], count;
    make(plate);
    uint32_t refusal = p3p_solve(plate->input, poses, updates, lifted, &count);
    counts->plates++;
    counts->refused[refusal]++;
    counts->told += refusal == 0 && tells(plate, poses, count);
}

static void print_row(const struct row *row) {
    uint64_t state = SEED;
    struct counts counts = {0, {0}, 0};
    for (long n = 0; n < PLATES; n++) {
        struct plate plate;
        make_plate(&state, 0, &plate);
        if (!is_thin(&plate))
            try_plate(&plate, row->make, &counts);
    }
    printf("| %s |", row->name);
    for (int number = 1; number < 4; number++)
        print_share(counts.refused[number], counts.plates);
    print_share(counts.told, counts.plates);
    print_share(counts.refused[0] - counts.told, counts.plates);
    printf("\n");
}

int main(void) {
    printf("| mistake | refused 1 | 2 | 3 | answered, the choice tells | it does not |\n"
           "|---|---:|---:|---:|---:|---:|\n");
    for (size_t r = 0; r < sizeof rows / sizeof *rows; r++)
        print_row(&rows[r]);
    return 0;
}
