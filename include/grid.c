/* The plate of example.c far from zero, in the metres of a national grid: solved about its first
 * target.
 *
 *   cc -O2 -Iinclude include/grid.c crates/p3p/out/libp3p.a -lm -o target/grid
 *   target/grid
 */
#include "p3p.h"
#include <math.h>
#include <stdio.h>

/* Easting, northing and height of the targets, the last for checking, and of the hole. */
static const double plate[4][3] = {{691000.25, 5334000.5, 512.125},
                                   {691000.75, 5334000.5, 512.125},
                                   {691000.25, 5334000.875, 512.125},
                                   {691000.75, 5334000.875, 512.25}};
static const double hole[3] = {691000.5, 5334000.0, 512.125};

/* The directions in which the camera sees the targets (x right, y down, z forward). */
static const double directions[4][3] = {
    {-0.25, -0.125, 2.0}, {0.15, -0.125, 2.3}, {-0.25, 0.25, 2.0}, {0.075, 0.25, 2.4}};

static void normalise(const double direction[3], double bearing[3])
{
    double x = direction[0], y = direction[1], z = direction[2];
    double length = sqrt(x * x + y * y + z * z);
    for (int i = 0; i < 3; i++)
        bearing[i] = direction[i] / length;
}

/* Rotation times point less origin, plus translation: from the world to the camera. What is
 * subtracted first leaves no large number for the rotation to meet. */
static void apply_about(const double pose[12], const double origin[3], const double point[3],
                        double camera[3])
{
    double x = point[0] - origin[0], y = point[1] - origin[1], z = point[2] - origin[2];
    for (int i = 0; i < 3; i++)
        camera[i] = pose[i] * x + pose[3 + i] * y + pose[6 + i] * z + pose[9 + i];
}

int main(void)
{
    double input[18], poses[48], origin[3], bearing[3], camera[3], score;
    uint32_t updates[4], lifted[4], count, best, refusal;
    for (int k = 0; k < 3; k++) {
        for (int i = 0; i < 3; i++)
            input[3 * k + i] = plate[k][i];
        normalise(directions[k], input + 9 + 3 * k);
    }
    normalise(directions[3], bearing);

    /* one to four poses about the first target, which comes back as the origin */
    refusal = p3p_solve_about(input, poses, updates, lifted, &count, origin);
    if (refusal == 0) /* the checking target as it is */
        refusal = p3p_choose_about(poses, count, origin, plate[3], bearing, &best, &score);
    if (refusal != 0) {
        fprintf(stderr, "refused %u\n", refusal);
        return 1;
    }
    apply_about(poses + 12 * (best - 1), origin, hole, camera);
    printf("origin %.3f %.3f %.3f\n", origin[0], origin[1], origin[2]);
    printf("best %u of %u, score %.1e\n", best, count, score);
    printf("hole at camera %.6f %.6f %.6f\n", camera[0], camera[1], camera[2]);
    return 0;
}
