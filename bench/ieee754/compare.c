// The proved single operations beside others, bit for bit, every NaN as one value: the square root,
// the fused multiply-add, also that of a square, and the magnitude beside the C library's, the cube
// root by whole numbers, and copied sign, maximum and total order by the order of bit patterns. And
// the third of a word, without a division, beside C's.
//   compare [COUNT [SEED]]     COUNT arguments of each
#include <inttypes.h>
#include <stdio.h>
#include <stdlib.h>
#include "arguments.h"
#include "../../include/p3p.h"

// crates/ieee754_single
double ieee754_abs(double x);
double ieee754_fma_square(double x, double z);
uint64_t ieee754_third(uint64_t n);

typedef unsigned __int128 u128;

// A number below 2^192.
struct wide {
    uint64_t word[3];
};

static int order(struct wide a, struct wide b) {
    for (int i = 2; i >= 0; i--)
        if (a.word[i] != b.word[i]) return a.word[i] < b.word[i] ? -1 : 1;
    return 0;
}

// z^3, for a z below 2^56.
static struct wide cube(uint64_t z) {
    u128 square = (u128)z * z;
    u128 low = (u128)(uint64_t)square * z;
    u128 high = (u128)(uint64_t)(square >> 64) * z + (uint64_t)(low >> 64);
    return (struct wide){{(uint64_t)low, (uint64_t)high, (uint64_t)(high >> 64)}};
}

// m * 2^s, for an m below 2^53 and an s below 139.
static struct wide shifted(uint64_t m, int s) {
    struct wide r = {{0, 0, 0}};
    u128 part = (u128)m << (s % 64);
    r.word[s / 64] = (uint64_t)part;
    if (s / 64 < 2) r.word[s / 64 + 1] = (uint64_t)(part >> 64);
    return r;
}

// The significand of 53 digits of a positive finite double, and its exponent.
static uint64_t parts(double x, int *e) {
    uint64_t m = bits(x) & (LEADING - 1);
    *e = (int)(bits(x) >> 52) - 1075;
    if (bits(x) >= LEADING) return m | LEADING;
    for (*e = -1074; m < LEADING; m <<= 1) --*e;
    return m;
}

// Whether r is the double nearest to the cube root of x. For r = q * 2^k the root is to lie between
// the middles of r and its neighbours, q - 1/2 (or q - 1/4 at the start of a binade) and q + 1/2,
// times 2^k. It never is one of them: the cube of a middle has more digits than a double.
static int is_root(double x, double r) {
    if (isnan(x)) return isnan(r);
    if (x == 0 || isinf(x)) return bits(r) == bits(x);
    if (signbit(x) != signbit(r) || !(fabs(r) > 0) || isinf(r)) return 0;
    int e, k;
    uint64_t m = parts(fabs(x), &e), q = parts(fabs(r), &k);
    int s = e + 6 - 3 * k;
    if (s < 0 || s > 138) return 0;
    struct wide power = shifted(m, s); // 4^3 times the cube, in cubes of 2^k
    return order(cube(4 * q - (q == LEADING ? 1 : 2)), power) < 0 &&
           order(power, cube(4 * q + 2)) < 0;
}

static int same(double a, double b) { return isnan(a) ? isnan(b) : bits(a) == bits(b); }

static const char *kinds[] = {"NaN", "infinite", "zero", "subnormal", "normal"};
static int kind(double r) {
    return isnan(r) ? 0 : isinf(r) ? 1 : r == 0 ? 2 : fabs(r) < 0x1p-1022 ? 3 : 4;
}

static long report(const char *name, long count, long differ, const long *results) {
    printf("%s %ld compared, %ld differ (results:", name, count, differ);
    for (int i = 0; i < 5; i++) printf(" %ld %s%s", results[i], kinds[i], i < 4 ? "," : ")\n");
    fflush(stdout);
    return differ;
}

static long compare_sqrt(long count) {
    long differ = 0, results[5] = {0};
    for (long i = 0; i < count; i++) {
        double x = sqrt_argument(), r = p3p_sqrt(x), s = sqrt(x);
        results[kind(s)]++;
        if (!same(r, s) && differ++ < 10)
            printf("sqrt %016" PRIx64 ": %016" PRIx64 ", not %016" PRIx64 "\n", bits(x), bits(r),
                   bits(s));
    }
    return report("sqrt", count, differ, results);
}

static long compare_fma(long count) {
    long differ = 0, results[5] = {0};
    for (long i = 0; i < count; i++) {
        double x, y, z;
        fma_arguments(&x, &y, &z);
        double r = p3p_fma(x, y, z), s = fma(x, y, z);
        results[kind(s)]++;
        if (!same(r, s) && differ++ < 10)
            printf("fma %016" PRIx64 " %016" PRIx64 " %016" PRIx64 ": %016" PRIx64
                   ", not %016" PRIx64 "\n",
                   bits(x), bits(y), bits(z), bits(r), bits(s));
    }
    return report("fma", count, differ, results);
}

static long compare_fma_square(long count) {
    long differ = 0, results[5] = {0};
    for (long i = 0; i < count; i++) {
        double x, z;
        fma_square_arguments(&x, &z);
        double r = ieee754_fma_square(x, z), s = fma(x, x, z);
        results[kind(s)]++;
        if (!same(r, s) && differ++ < 10)
            printf("fma of a square %016" PRIx64 " %016" PRIx64 ": %016" PRIx64
                   ", not %016" PRIx64 "\n",
                   bits(x), bits(z), bits(r), bits(s));
    }
    return report("fma of a square", count, differ, results);
}

static long compare_abs(long count) {
    long differ = 0, results[5] = {0};
    for (long i = 0; i < count; i++) {
        double x = of(below(2) ? special() : next());
        double r = ieee754_abs(x);
        results[kind(x)]++;
        if (!same(r, fabs(x)) && differ++ < 10)
            printf("abs %016" PRIx64 ": %016" PRIx64 "\n", bits(x), bits(r));
    }
    return report("abs", count, differ, results);
}

static long compare_cbrt(long count) {
    long differ = 0, results[5] = {0};
    for (long i = 0; i < count; i++) {
        double x = cbrt_argument(), r = p3p_cbrt(x);
        results[kind(r)]++;
        if (!is_root(x, r) && differ++ < 10)
            printf("cbrt %016" PRIx64 ": not %016" PRIx64 "\n", bits(x), bits(r));
    }
    return report("cbrt", count, differ, results);
}

// The place of a double among the others: minus zero is below plus zero, and NaN above every
// number.
static int64_t place(double x) {
    if (isnan(x)) return INT64_MAX;
    return signbit(x) ? -(int64_t)(bits(x) & ~SIGN) - 1 : (int64_t)bits(x);
}

static long compare_pairs(long count) {
    long differ[3] = {0};
    for (long i = 0; i < count; i++) {
        double x = of(below(2) ? special() : next());
        double y = of(below(2) ? special() : below(2) ? bits(x) + below(3) - 1 : next());
        int64_t a = place(x), b = place(y);
        double larger = isnan(x) ? y : isnan(y) ? x : a < b ? y : x;
        differ[0] += !same(p3p_copysign(x, y), isnan(y) ? fabs(x) : copysign(x, y));
        differ[1] += !same(p3p_max(x, y), larger);
        differ[2] += p3p_total_cmp(x, y) != (a > b) - (a < b);
    }
    const char *names[] = {"copysign", "max", "total_cmp"};
    for (int i = 0; i < 3; i++) printf("%s %ld compared, %ld differ\n", names[i], count, differ[i]);
    return differ[0] + differ[1] + differ[2];
}

// A word of any length; or one beside a multiple of 2^32 or of 3, with a high half of ones, or with
// halves whose sum is beside 2^32.
static uint64_t third_argument(void) {
    uint64_t near = below(5) - 2, high = next() >> 32;
    switch (below(5)) {
        case 0: return (high << 32) + near;
        case 1: return 3 * (next() / 3) + near;
        case 2: return (uint64_t)0xffffffff << 32 | high;
        case 3: return high << 32 | (uint32_t)(near - high);
        default: return next() >> below(64);
    }
}

static long compare_third(long count) {
    long differ = 0;
    for (long i = 0; i < count; i++) {
        uint64_t n = third_argument(), r = ieee754_third(n);
        if (r != n / 3 && differ++ < 10)
            printf("third %016" PRIx64 ": %016" PRIx64 "\n", n, r);
    }
    printf("third %ld compared, %ld differ\n", count, differ);
    return differ;
}

// The test of a cube root refuses the neighbours of a right result.
static long try_the_test(long count) {
    long taken = 0;
    for (long i = 0; i < count; i++) {
        double x = cbrt_argument(), r = p3p_cbrt(x);
        if (isnan(x) || isinf(x) || x == 0) continue;
        taken += is_root(x, of(bits(r) + 1)) + is_root(x, of(bits(r) - 1)) + is_root(x, -r);
    }
    printf("cbrt, neighbours of right results: %ld taken for right\n", taken);
    return taken;
}

int main(int argc, char **argv) {
    long count = argc > 1 ? atol(argv[1]) : 1000000;
    seed = argc > 2 ? strtoull(argv[2], 0, 0) : 0x9e3779b97f4a7c15;
    printf("seed %016" PRIx64 "\n", seed);
    long differ = compare_sqrt(count) + compare_fma(count) + compare_fma_square(count) +
                  compare_abs(count) + compare_cbrt(count) + compare_pairs(count) +
                  compare_third(count) + try_the_test(count / 1000);
    return differ != 0;
}
