// What the processor's floating-point modes do to a solve: how many stored frames are answered
// otherwise with flush-to-zero, with denormals-are-zero, with both, and in the modes in which this
// program was started, which linking with -ffast-math changes; and how many raise which exception
// flags. x86-64 only.
//   flush FRAMES
#include "../../include/p3p.h"
#include "../solve/frames.h"
#include <stdio.h>
#include <string.h>
#include <xmmintrin.h>

enum { FLUSH_TO_ZERO = 0x8000, DENORMALS_ARE_ZERO = 0x40, FLAGS = 0x3f };
enum { MODES = 4, RAISED = 6, PLATES = 1000 }; // the first thousand stored frames are plates

// How many frames something holds of, and how many of the plates.
struct tally {
    const char *name;
    unsigned bits;
    long frames, plates;
};

static struct tally total = {"in all", 0, 0, 0};
static struct tally differ[MODES] = {
    {"answered otherwise with flush-to-zero", FLUSH_TO_ZERO, 0, 0},
    {"answered otherwise with denormals-are-zero", DENORMALS_ARE_ZERO, 0, 0},
    {"answered otherwise with both", FLUSH_TO_ZERO | DENORMALS_ARE_ZERO, 0, 0},
    {"answered otherwise as started", 0, 0, 0},
};
static struct tally raise[RAISED] = {
    {"raise invalid", 1, 0, 0},          {"raise denormal operand", 2, 0, 0},
    {"raise division by zero", 4, 0, 0}, {"raise overflow", 8, 0, 0},
    {"raise underflow", 16, 0, 0},       {"raise inexact", 32, 0, 0},
};

static void count(struct tally *tally, int holds, int plate) {
    tally->frames += holds;
    tally->plates += holds && plate;
}

static void print(const struct tally *tally) {
    printf("| %s | %ld | %ld |\n", tally->name, tally->frames, tally->plates);
}

struct answer {
    uint32_t refusal, count, updates[4], lifted[4];
    double poses[48];
};

// Solves with a value of the control register; gives the flags that were raised.
static unsigned solve(const double input[18], unsigned control, struct answer *answer) {
    unsigned before = _mm_getcsr();
    memset(answer, 0, sizeof *answer);
    _mm_setcsr(control & ~(unsigned)FLAGS);
    answer->refusal =
        p3p_solve(input, answer->poses, answer->updates, answer->lifted, &answer->count);
    unsigned raised = _mm_getcsr() & FLAGS;
    _mm_setcsr(before);
    return raised;
}

static void try_frame(const double input[18], unsigned started) {
    unsigned modes = FLUSH_TO_ZERO | DENORMALS_ARE_ZERO;
    int plate = total.frames < PLATES;
    struct answer plain, other;
    unsigned raised = solve(input, started & ~modes, &plain);
    for (int m = 0; m < MODES; m++) {
        solve(input, (started & ~modes) | differ[m].bits, &other);
        count(&differ[m], memcmp(&other, &plain, sizeof plain) != 0, plate);
    }
    for (int f = 0; f < RAISED; f++)
        count(&raise[f], (raised & raise[f].bits) != 0, plate);
    count(&total, 1, plate);
}

int main(int argc, char **argv) {
    unsigned started = _mm_getcsr();
    double input[18];
    FILE *file = argc == 2 ? fopen(argv[1], "rb") : NULL;
    if (!file) {
        fprintf(stderr, "usage: flush FRAMES\n");
        return 1;
    }
    differ[MODES - 1].bits = started & (FLUSH_TO_ZERO | DENORMALS_ARE_ZERO);
    while (next_input(file, input))
        try_frame(input, started);
    printf("started with flush-to-zero %s and denormals-are-zero %s\n\n",
           started & FLUSH_TO_ZERO ? "on" : "off", started & DENORMALS_ARE_ZERO ? "on" : "off");
    printf("| frames | stored | of these plates |\n|---|---:|---:|\n");
    print(&total);
    for (int m = 0; m < MODES; m++)
        print(&differ[m]);
    for (int f = 0; f < RAISED; f++)
        print(&raise[f]);
    return total.frames == 0;
}
