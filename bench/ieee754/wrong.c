// Functions in the place of the exported ones, each plausible and wrong somewhere: the comparison
// has to find fault with every one.
#include <math.h>
#include "../../include/p3p.h"

double p3p_sqrt(double x) {
    double s = sqrt(x);
    return 0.5 * (s + x / s);
}
double p3p_cbrt(double x) { return cbrt(x); }
double p3p_fma(double x, double y, double z) { return x * y + z; }
double ieee754_fma_square(double x, double z) { return x * x + z; }
double ieee754_abs(double x) { return x < 0 ? -x : x; }
double p3p_copysign(double x, double y) { return y < 0 ? -fabs(x) : fabs(x); }
double p3p_max(double x, double y) { return x < y ? y : x; }
int32_t p3p_total_cmp(double x, double y) { return (x > y) - (x < y); }
// right below 2^32
uint64_t ieee754_third(uint64_t n) { return n * 0xaaaaaaab >> 33; }
