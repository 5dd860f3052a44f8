// Nanoseconds a call of the single operations, and of the fast cube root, beside the hardware's and
// the C library's. Each is called through a pointer, the hardware's instruction too, so a call is
// in every figure; the rows `a call alone` have its cost. In throughput the calls are independent;
// in latency each waits for the last.
#include <stdio.h>
#include <time.h>
#include "arguments.h"
#include "../../include/p3p.h"

// So many that a branch predictor does not learn them from one pass to the next.
#define N 65536
#define PASSES 40

static double __attribute__((noinline)) alone_one(double x) { return x; }
static double __attribute__((noinline)) alone_three(double x, double y, double z) {
    (void)y;
    (void)z;
    return x;
}
static double __attribute__((noinline)) hardware_sqrt(double x) { return __builtin_sqrt(x); }
static double __attribute__((noinline, target("fma"))) hardware_fma(double x, double y, double z) {
    return __builtin_fma(x, y, z);
}

// Arguments: of the roots, all exponents; of fma, exponents from 2^-10 to 2^9, and in the last set
// the addend is minus the product.
enum { ROOTS, SUMS, CANCELLING, SETS };
static double arguments[SETS][3][N];

static void fill(void) {
    for (int i = 0; i < N; i++) {
        arguments[ROOTS][0][i] = of(below(2046) * LEADING + leading());
        for (int set = SUMS; set <= CANCELLING; set++) {
            for (int k = 0; k < 3; k++)
                arguments[set][k][i] = of(sign() | field(1013 + below(20)) | next() >> 12);
            if (set == CANCELLING)
                arguments[set][2][i] = -(arguments[set][0][i] * arguments[set][1][i]);
        }
    }
}

// A row has a function of one argument or of three; its ratio is to the row that is `to` places
// further on, or before it where `to` is negative.
struct row {
    const char *operation, *whose;
    double (*one)(double);
    double (*three)(double, double, double);
    int set, to;
    double throughput, latency;
};

static struct row rows[] = {
    {"sqrt", "proved", p3p_sqrt, 0, ROOTS, 1, 1e99, 1e99},
    {"sqrt", "hardware", hardware_sqrt, 0, ROOTS, 0, 1e99, 1e99},
    {"cbrt", "proved", p3p_cbrt, 0, ROOTS, 1, 1e99, 1e99},
    {"cbrt", "C library", cbrt, 0, ROOTS, 0, 1e99, 1e99},
    {"fast_cbrt", "proved", p3p_fast_cbrt, 0, ROOTS, -1, 1e99, 1e99},
    {"one argument", "a call alone", alone_one, 0, ROOTS, 0, 1e99, 1e99},
    {"fma", "proved", 0, p3p_fma, SUMS, 1, 1e99, 1e99},
    {"fma", "hardware", 0, hardware_fma, SUMS, 0, 1e99, 1e99},
    {"fma", "C library", 0, fma, SUMS, -1, 1e99, 1e99},
    {"fma, cancelling", "proved", 0, p3p_fma, CANCELLING, 1, 1e99, 1e99},
    {"fma, cancelling", "hardware", 0, hardware_fma, CANCELLING, 0, 1e99, 1e99},
    {"three arguments", "a call alone", 0, alone_three, SUMS, 0, 1e99, 1e99},
};
#define ROWS (int)(sizeof rows / sizeof *rows)

static volatile uint64_t no_bits = 0;
static volatile uint64_t sink;

static double now(void) {
    struct timespec t;
    clock_gettime(CLOCK_MONOTONIC, &t);
    return (double)t.tv_sec * 1e9 + (double)t.tv_nsec;
}
static void keep(double *least, double t) {
    if (t < *least) *least = t;
}

// `last & mask` is 0, which the compiler does not know: the argument waits for the last result.
static void measure(struct row *r) {
    const double *x = arguments[r->set][0], *y = arguments[r->set][1], *z = arguments[r->set][2];
    uint64_t mask = no_bits, sum = 0, last = 0;
    double start = now();
    for (int i = 0; i < N; i++) sum += bits(r->one ? r->one(x[i]) : r->three(x[i], y[i], z[i]));
    double middle = now();
    for (int i = 0; i < N; i++) {
        double a = of(bits(x[i]) | (last & mask));
        last = bits(r->one ? r->one(a) : r->three(a, y[i], z[i]));
    }
    double end = now();
    sink = sum + last;
    keep(&r->throughput, (middle - start) / N);
    keep(&r->latency, (end - middle) / N);
}

int main(void) {
    seed = 0x9e3779b97f4a7c15;
    fill();
    if (!__builtin_cpu_supports("fma")) {
        printf("no fused multiply-add in this hardware: the C library's stands in its place\n");
        for (int i = 0; i < ROWS; i++)
            if (rows[i].three == hardware_fma) rows[i].three = fma;
    }
    // the least time of many passes: what else runs on the machine only adds
    for (int pass = 0; pass < PASSES; pass++)
        for (int i = 0; i < ROWS; i++) measure(&rows[i]);
    printf("%-30s %10s %10s   ratio to the hardware's (cbrt, fast_cbrt: the C library's)\n",
           "ns a call", "throughput", "latency");
    for (int i = 0; i < ROWS; i++) {
        const struct row *r = &rows[i], *base = r + r->to;
        printf("%-16s %-13s %10.1f %10.1f", r->operation, r->whose, r->throughput, r->latency);
        if (r->to)
            printf(" %8.1f %6.1f", r->throughput / base->throughput, r->latency / base->latency);
        printf("\n");
    }
    return 0;
}
