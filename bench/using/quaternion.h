// The way from a pose to a camera point by a unit quaternion, as the Rust goes: the rotation is
// trued, that is replaced by an exact one, and the translation is kept.
#include <math.h>

// The quaternion w, x, y, z of a rotation by columns, by the same formulas as nalgebra's
// UnitQuaternion::from_rotation_matrix.
static void quaternion(const double r[9], double q[4]) {
    double trace = r[0] + r[4] + r[8];
    int a = r[0] > r[4] && r[0] > r[8] ? 0 : r[4] > r[8] ? 1 : 2;
    int b = (a + 1) % 3, c = (a + 2) % 3;
    double skew[3] = {r[5] - r[7], r[6] - r[2], r[1] - r[3]};
    if (trace > 0) {
        double twice = 2 * sqrt(trace + 1);
        q[0] = 0.25 * twice;
        for (int i = 0; i < 3; i++)
            q[1 + i] = skew[i] / twice;
    } else {
        double twice = 2 * sqrt(1 + r[4 * a] - r[4 * b] - r[4 * c]);
        q[0] = skew[a] / twice;
        q[1 + a] = 0.25 * twice;
        q[1 + b] = (r[a + 3 * b] + r[b + 3 * a]) / twice;
        q[1 + c] = (r[a + 3 * c] + r[c + 3 * a]) / twice;
    }
}

static double cross_entry(const double a[3], const double b[3], int i) {
    return a[(i + 1) % 3] * b[(i + 2) % 3] - a[(i + 2) % 3] * b[(i + 1) % 3];
}

// q * x * q^-1 + t with q of unit length
static void by_quaternion(const double pose[12], const double x[3], double out[3]) {
    double q[4], twice[3];
    quaternion(pose, q);
    double length = sqrt(q[0] * q[0] + q[1] * q[1] + q[2] * q[2] + q[3] * q[3]);
    for (int i = 0; i < 4; i++)
        q[i] /= length;
    for (int i = 0; i < 3; i++)
        twice[i] = 2 * cross_entry(q + 1, x, i);
    for (int i = 0; i < 3; i++)
        out[i] = twice[i] * q[0] + cross_entry(q + 1, twice, i) + x[i] + pose[9 + i];
}
