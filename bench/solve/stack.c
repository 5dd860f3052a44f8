// The deepest stack of one solve, and the stack of one call of each other function: each call is
// made on a thread whose stack was filled with a known byte, and the lowest byte that changed is
// found. Prints, in bytes below the frame of the function that makes the call, the deepest solve of
// the stored frames, plain, about the first target, with a plate and as a preview, and then the
// other functions.
//   stack FRAMES
#include "../../include/p3p.h"
#include "frames.h"
#include <pthread.h>
#include <stdlib.h>

enum { AREA = 1 << 18, FILL = 0xa5 };

static double input[18], poses[48], frame[24], origin[3], edges[3], first, second, score;
static const double target[3] = {0.5, 0.375, 0.125}, bearing[3] = {0.0, 0.6, 0.8};
static const double axes[9] = {1.0, 0.0, 0.0, 0.0, 1.0, 0.0, 0.0, 0.0, 1.0};
// The first of these poses moves nothing: the target lies before the camera, so it has a score.
static const double unmoved[48] = {[0] = 1.0, [4] = 1.0, [8] = 1.0};
static const uint8_t record[P3P_RECORD_SIZE] = {0, 193, 1};
static double plate[21]; // of the frame
static uint32_t updates[4], lifted[4], count, best, has_inverse;
static volatile uintptr_t above;
static volatile double number = 0.3; // unknown to the compiler

// The functions beside solve, each with a call.
#define OTHERS(EACH)                                                     \
    EACH(choose, p3p_choose(unmoved, 4, target, bearing, &best, &score)) \
    EACH(choose_about, p3p_choose_about(unmoved, 4, origin, target, bearing, &best, &score)) \
    EACH(plate_make, p3p_plate_make(axes, plate, &has_inverse))          \
    EACH(plate_replace, p3p_plate_replace(plate, &has_inverse, 2, target)) \
    EACH(plate_exchange, p3p_plate_exchange(plate, &has_inverse, 0, 1))  \
    EACH(plate_scale, p3p_plate_scale(plate, &has_inverse, 1))           \
    EACH(read_record, p3p_read_record(record, sizeof record, frame))     \
    EACH(quadratic, p3p_quadratic(-3.0, number, &first, &second))        \
    EACH(quadratic_kind, p3p_quadratic_kind(-3.0, number, &first, &second, &best)) \
    EACH(cubic, p3p_cubic(-3.0, 2.0, number, &first))                    \
    EACH(fast_cbrt, first = p3p_fast_cbrt(number))                       \
    EACH(cbrt, first = p3p_cbrt(number))                                 \
    EACH(sqrt, first = p3p_sqrt(number))                                 \
    EACH(fma, first = p3p_fma(number, number, 1.0))                      \
    EACH(copysign, first = p3p_copysign(number, -1.0))                   \
    EACH(max, first = p3p_max(number, 1.0))                              \
    EACH(total_cmp, best = (uint32_t)p3p_total_cmp(number, 1.0))

// A thread's function that makes a call, and its line in a table.
#define CALLER(name, call)                   \
    static void *call_##name(void *unused) { \
        unsigned char here;                  \
        above = (uintptr_t)&here;            \
        call;                                \
        return unused;                       \
    }
#define ENTRY(name, call) {#name, call_##name},

CALLER(nothing, )
CALLER(solve, p3p_solve(input, poses, updates, lifted, &count))
CALLER(solve_about, p3p_solve_about(input, poses, updates, lifted, &count, origin))
CALLER(plate_solve,
       p3p_plate_solve(plate, has_inverse, input + 9, poses, updates, lifted, &count))
// of the third target at its own place, so that the solve is the frame's
CALLER(plate_preview, p3p_plate_preview(plate, has_inverse, 2, input + 6, input + 9, poses, updates,
                                        lifted, &count, edges))
OTHERS(CALLER)

static const struct {
    const char *name;
    void *(*call)(void *);
} others[] = {OTHERS(ENTRY)};

// How far below the frame of `run` a thread wrote.
static size_t depth(unsigned char *area, void *(*run)(void *)) {
    pthread_attr_t attributes;
    pthread_t thread;
    memset(area, FILL, AREA);
    if (pthread_attr_init(&attributes) || pthread_attr_setstack(&attributes, area, AREA) ||
        pthread_create(&thread, &attributes, run, NULL) || pthread_join(thread, NULL)) {
        fprintf(stderr, "no thread\n");
        exit(1);
    }
    pthread_attr_destroy(&attributes);
    unsigned char *lowest = area;
    while (*lowest == FILL) lowest++;
    return above - (uintptr_t)lowest;
}

int main(int argc, char **argv) {
    FILE *file = argc == 2 ? fopen(argv[1], "rb") : NULL;
    unsigned char *area = aligned_alloc(4096, AREA);
    if (!file || !area) {
        fprintf(stderr, "usage: stack FRAMES\n");
        return 1;
    }
    // what a thread that does nothing writes as it ends is no part of a solve
    size_t deepest = 0, about = 0, with_plate = 0, preview = 0, idle = depth(area, call_nothing);
    long frames = 0, at = 0;
    while (next_input(file, input)) {
        size_t used = depth(area, call_solve), used_about = depth(area, call_solve_about);
        frames++;
        about = used_about > about ? used_about : about;
        if (p3p_plate_make(input, plate, &has_inverse) == 0) {
            size_t used_plate = depth(area, call_plate_solve);
            size_t used_preview = depth(area, call_plate_preview);
            with_plate = used_plate > with_plate ? used_plate : with_plate;
            preview = used_preview > preview ? used_preview : preview;
        }
        if (used > deepest) {
            deepest = used;
            at = frames;
        }
    }
    printf("%ld frames; deepest stack of a solve: %zu bytes (frame %ld); about the first target: "
           "%zu; with a plate: %zu; as a preview: %zu; of a thread that does nothing: %zu\n",
           frames, deepest, at, about, with_plate, preview, idle);
    for (size_t i = 0; i < sizeof others / sizeof others[0]; i++)
        printf("%s: %zu\n", others[i].name, depth(area, others[i].call));
    return frames == 0;
}
