// Random and hard arguments of the single operations, from a seed.
#include <math.h>
#include <stdint.h>
#include <string.h>

#define SIGN 0x8000000000000000u
#define INFINITE 0x7ff0000000000000u
#define LEADING 0x0010000000000000u

static inline double of(uint64_t b) {
    double d;
    memcpy(&d, &b, 8);
    return d;
}
static inline uint64_t bits(double d) {
    uint64_t b;
    memcpy(&b, &d, 8);
    return b;
}

// Marsaglia's xorshift generator with a multiplication.
static uint64_t seed;
static inline uint64_t next(void) {
    seed ^= seed << 13;
    seed ^= seed >> 7;
    seed ^= seed << 17;
    return seed * 2685821657736338717u;
}
static inline uint64_t below(uint64_t n) { return (next() >> 16) % n; }
static inline uint64_t sign(void) { return next() & SIGN; }
// 53 digits, the first of them 1.
static inline uint64_t leading(void) { return LEADING | next() >> 12; }

// A field of an exponent, held inside the range of the finite doubles.
static inline uint64_t field(int64_t e) {
    return (uint64_t)(e < 0 ? 0 : e > 2046 ? 2046 : e) << 52;
}

// 52 digits below the leading one: random, or a row of ones or zeros at the end, or one digit, or
// nearly the next binade.
static inline uint64_t fraction(void) {
    uint64_t f = next() >> 12;
    switch (below(6)) {
    case 0: return f & ~0ull << below(53) & (LEADING - 1);
    case 1: return (f | ((1ull << below(53)) - 1)) & (LEADING - 1);
    case 2: return 1ull << below(52);
    case 3: return LEADING - 1 - below(4);
    default: return f;
    }
}

static inline uint64_t special(void) {
    static const uint64_t values[] = {
        0, 1, 2, 3, LEADING - 1, LEADING, LEADING + 1,
        0x3fefffffffffffff, 0x3ff0000000000000, 0x3ff0000000000001, 0x4000000000000000,
        0x7fe0000000000000, 0x7feffffffffffffe, 0x7fefffffffffffff, INFINITE,
        0x7ff8000000000000, 0x0008000000000000, 0x3ca0000000000000, 0x4340000000000000,
        0x0360000000000000, 0x1ff0000000000000, 0x5fe0000000000000,
    };
    return values[below(sizeof values / 8)] | sign();
}

// The same significand at another exponent that differs by a multiple of `step`.
static inline uint64_t moved(uint64_t b, int step) {
    uint64_t e = (b >> 52) % step;
    return (e + step + below(2040 / step - 1) * step) << 52 | (b & (LEADING - 1));
}

// A root of c modulo 2^54, for a c that is 1 modulo 8: Newton's method for 1 / sqrt(c), each turn
// of which doubles the right digits.
static inline uint64_t root_modulo(uint64_t c) {
    uint64_t y = 1;
    for (int i = 0; i < 6; i++) y = y * ((3 - c * y * y) >> 1);
    return c * y & ((1ull << 54) - 1);
}

// An argument whose square root is as near to the middle of two doubles as any: the root of n *
// 2^52 has the middle z / 2 beside it, where z * z - n * 2^54 = c is small.
static inline uint64_t hard_square(void) {
    for (;;) {
        int64_t c = 1 + 8 * ((int64_t)below(4096) - 2048);
        uint64_t z = root_modulo((uint64_t)c);
        if (below(2)) z = (1ull << 54) - z;
        if (below(2)) z ^= 1ull << 53;
        unsigned __int128 rest = (unsigned __int128)z * z - (__int128)c;
        uint64_t n = (uint64_t)(rest >> 54);
        if (z < 1ull << 53 || ((uint64_t)rest & ((1ull << 54) - 1)) != 0) continue;
        if (n >= LEADING && n < 2 * LEADING) return moved(0x3ff0000000000000 - LEADING + n, 2);
        if (n >= 2 * LEADING && n % 2 == 0) return moved(0x4000000000000000 - LEADING + n / 2, 2);
    }
}

static inline double sqrt_argument(void) {
    uint64_t n;
    switch (below(8)) {
    case 0: return of(next());
    case 1: return of(special());
    case 2: return of(next() >> (12 + below(52)));
    case 3:
        n = 1 + (next() >> (38 + below(26)));
        return of(moved(bits((double)(n * n)), 2) + below(3) - 1);
    case 4:
    case 5: return of(hard_square());
    case 6: return of(field(below(2047)) + below(64) - 32);
    default: return of(next() >> 1);
    }
}

// One of the two doubles beside the cube of the middle z / 2 of two doubles. z^3 has 160 to 162
// digits.
static inline uint64_t middle_cube(void) {
    uint64_t z = leading() * 2 + 1;
    unsigned __int128 square = (unsigned __int128)z * z;
    unsigned __int128 top = (square >> 64) * z + ((square & ~0ull) * z >> 64);
    uint64_t n = (uint64_t)(top >> 40), e = 0;
    for (; n >= 2 * LEADING; n >>= 1) e++;
    return moved(e << 52 | (n & (LEADING - 1)), 3) + below(2);
}

static inline double cbrt_argument(void) {
    uint64_t n;
    switch (below(8)) {
    case 0: return of(special());
    case 1: return of(next() >> (12 + below(52)) | sign());
    case 2:
        n = 1 + (next() >> (47 + below(17)));
        return of((moved(bits((double)(n * n * n)), 3) + below(3) - 1) | sign());
    case 3:
    case 4: return of(middle_cube() | sign());
    case 5: return of((field(below(2047)) + below(64) - 32) ^ sign());
    default: return of(next());
    }
}

// The inverse of an odd number modulo 2^64.
static inline uint64_t inverse(uint64_t x) {
    uint64_t y = x;
    for (int i = 0; i < 5; i++) y *= 2 - x * y;
    return y;
}

static inline void fma_arguments(double *x, double *y, double *z) {
    int64_t d, e;
    uint64_t a = sign(), b = sign(), c = sign(), s;
    switch (below(12)) {
    case 0:
        a = next();
        b = next();
        c = next();
        break;
    case 1:
    case 2: // every exponent, the addend near the product
        d = below(2047);
        e = below(2047);
        a |= field(d) | fraction();
        b |= field(e) | fraction();
        c |= field(d + e - 1023 + (int64_t)below(260) - 130) | fraction();
        break;
    case 3:
    case 4: // minus the rounded product, or a neighbour
        a |= field(400 + below(1200)) | fraction();
        b |= field(400 + below(1200)) | fraction();
        c = bits(-(of(a) * of(b)));
        if ((c & ~SIGN) < INFINITE - 4 && (c & ~SIGN) > 4) c += below(9) - 4;
        break;
    case 5: // subnormal results
        d = below(1100);
        a |= field(d) | fraction();
        b |= field(1023 - d - (int64_t)below(140) + 20) | fraction();
        c |= field(below(60)) | fraction();
        break;
    case 6: // the overflow edge
        d = 1023 + below(1024);
        a |= field(d) | fraction();
        b |= field(3069 - d + (int64_t)below(8) - 4) | fraction();
        c |= field(2046 - (int64_t)below(60)) | fraction();
        break;
    case 7:
        a = special();
        b = special();
        c = special();
        break;
    case 8:
        a = special();
        b = below(2) ? special() : next();
        c = next();
        break;
    case 9: // a product one last digit from the middle of two doubles
        s = leading() | 1;
        a |= field(700 + below(400)) | (s & (LEADING - 1));
        b |= field(700 + below(400)) |
             (((LEADING >> 1) + below(3) - 1) * inverse(s) & (LEADING - 1));
        c = below(2) ? c : c | next() >> 12;
        break;
    case 10: // an odd product of 54 digits is a middle; a far addend settles it
        a |= bits((double)((next() >> 37) | 1 | 1 << 26));
        b |= bits((double)((next() >> 37) | 1 | 1 << 26));
        c = below(2) ? c : c | field(below(1000)) | fraction();
        break;
    default:
        d = 900 + below(200);
        e = 900 + below(200);
        a |= field(d) | fraction();
        b |= field(e) | fraction();
        c |= field(d + e - 1023 + (int64_t)below(8) - 4) | fraction();
    }
    *x = of(a);
    *y = of(b);
    *z = of(c);
}

// Of a square: as above, and with the addend's exponent at or near the ends of the range in which
// its digits and the square's lie within two words, and where the leading digits meet.
static inline void fma_square_arguments(double *x, double *z) {
    double y;
    int64_t e, ends[] = {0, 1, 62, 63, 64, 52, 53, 54};
    uint64_t a = sign(), c = sign();
    switch (below(4)) {
    case 0:
        fma_arguments(x, &y, z);
        return;
    case 1: // minus the rounded square, or a neighbour
        a |= field(540 + below(960)) | fraction();
        c = bits(-(of(a) * of(a)));
        if ((c & ~SIGN) > 4) c += below(9) - 4;
        break;
    case 2: // the exponents' difference at an end
        e = 540 + (int64_t)below(980);
        a |= field(e) | fraction();
        c |= field(2 * e - 1075 + ends[below(8)]) | fraction();
        break;
    default: // a small square
        e = (int64_t)below(600);
        a |= field(e) | fraction();
        c |= field(2 * e - 1075 + (int64_t)below(70)) | fraction();
    }
    *x = of(a);
    *z = of(c);
}
