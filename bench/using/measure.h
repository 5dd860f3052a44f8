// What the programs here share beside the plates: a pose applied, its error at the hole, and the
// figures of many errors as cells of a table.
#include "plates.h"
#include <stdio.h>
#include <stdlib.h>

enum { PLATES = 200000, SEED = 20261117 };

// R * x + t with a pose as p3p_solve writes it.
static inline void apply(const double pose[12], const double x[3], double out[3]) {
    for (int i = 0; i < 3; i++)
        out[i] = pose[i] * x[0] + pose[3 + i] * x[1] + pose[6 + i] * x[2] + pose[9 + i];
}

// How far a computed camera point of the hole is from the true one, in millimetres.
static inline double error_mm(const struct plate *plate, const double camera[3]) {
    real off[3];
    for (int i = 0; i < 3; i++)
        off[i] = camera[i] - plate->hole_seen[i];
    return (double)(sqrtl(dot(off, off)) * plate->mm);
}

static inline double error_of_pose(const struct plate *plate, const double pose[12]) {
    double camera[3];
    apply(pose, plate->hole, camera);
    return error_mm(plate, camera);
}

// The slot whose pose puts the hole nearest to where it is.
static inline uint32_t nearest(const struct plate *plate, const double poses[48], uint32_t count) {
    uint32_t best = 0;
    for (uint32_t k = 1; k < count; k++)
        if (error_of_pose(plate, poses + 12 * k) < error_of_pose(plate, poses + 12 * best))
            best = k;
    return best;
}

// ---- figures

struct figures {
    long plates, count; // how many were tried, and how many have a value
    double values[PLATES];
};

static inline void clear(struct figures *figures) { figures->plates = figures->count = 0; }

static inline void note(struct figures *figures, double value) {
    figures->values[figures->count++] = value;
}

static inline int ascending(const void *a, const void *b) {
    double x = *(const double *)a, y = *(const double *)b;
    return (x > y) - (x < y);
}

static inline void sort(struct figures *figures) {
    qsort(figures->values, (size_t)figures->count, sizeof *figures->values, ascending);
}

// The value that the given part of the sorted values does not pass.
static inline void print_quantile(const struct figures *figures, double part) {
    if (figures->count == 0)
        printf(" |");
    else
        printf(" %.1e |", figures->values[(long)(part * (double)(figures->count - 1))]);
}

static inline void print_share(long count, long of) {
    printf(" %.2f%% |", 100 * (double)count / (double)of);
}
