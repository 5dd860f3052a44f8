/* A plate from the directions to its targets to the place of a hole.
 *
 *   cc -O2 -Iinclude include/example.c crates/p3p/out/libp3p.a -lm -o target/example
 *   target/example
 */
#include "p3p.h"
#include <math.h>
#include <stdio.h>

/* The plate's targets in metres, the last for checking, and the hole. */
static const double plate[4][3] = {
    {0.0, 0.0, 0.0}, {0.5, 0.0, 0.0}, {0.0, 0.375, 0.0}, {0.5, 0.375, 0.125}};
static const double hole[3] = {0.25, -0.5, 0.0};
static const double degrees = 57.29577951308232;
/* How far off its bearing the checking target may be, in degrees: your measuring error. */
static const double limit = 0.01;

/* The directions in which the camera sees them (x right, y down, z forward), of any length. */
static const double directions[4][3] = {
    {-0.25, -0.125, 2.0}, {0.15, -0.125, 2.3}, {-0.25, 0.25, 2.0}, {0.075, 0.25, 2.4}};

/* What a refusal asks you to do. */
static const char *advice(uint32_t refusal)
{
    switch (refusal) {
    case P3P_INPUT_NOT_FINITE:
        return "a number is an infinity or a NaN: look for the target that was lost";
    case P3P_NO_USABLE_ORDERING:
        return "an equilateral plate seen squarely, or all at one place: move the camera aside";
    case P3P_NO_POSE:
        return "no pose fits: look whether bearings have unit length, or points lie in a line";
    case P3P_NO_FINITE_SCORE:
        return "no pose has a finite score: is the checking target right, its bearing reversed?";
    default:
        return "not a number of solve or choose";
    }
}

/* A direction divided by its length, in double: the solver takes unit vectors. Of no length it
 * becomes NaNs, which solve and choose refuse. */
static void normalise(const double direction[3], double bearing[3])
{
    double x = direction[0], y = direction[1], z = direction[2];
    double length = sqrt(x * x + y * y + z * z);
    for (int i = 0; i < 3; i++)
        bearing[i] = direction[i] / length;
}

/* Rotation times point plus translation: from the world to the camera. */
static void apply(const double pose[12], const double point[3], double camera[3])
{
    for (int i = 0; i < 3; i++)
        camera[i] = pose[i] * point[0] + pose[3 + i] * point[1] + pose[6 + i] * point[2]
                    + pose[9 + i];
}

/* The poses, which of them are lifted, and which is the best. */
static void print_poses(const double poses[48], const uint32_t lifted[4], uint32_t count,
                        uint32_t best)
{
    for (uint32_t k = 0; k < count; k++) {
        const double *pose = poses + 12 * k;
        printf("pose %u%s, rotation by rows and translation\n", k + 1,
               lifted[k] ? ", lifted" : "");
        for (int i = 0; i < 3; i++)
            printf("%10.6f %9.6f %9.6f %12.6f\n", pose[i], pose[3 + i], pose[6 + i], pose[9 + i]);
    }
    printf("best %u\n", best);
}

/* Says what was refused, and what to do; the program's exit status. */
static int refused(const char *what, uint32_t refusal)
{
    fprintf(stderr, "%s refused %u: %s\n", what, refusal, advice(refusal));
    return 1;
}

/* Whether the checking target is seen where the best pose puts it: the score tells how far it is
 * off its bearing. */
static int confirmed(double score)
{
    double angle = atan(sqrt(score)) * degrees;
    printf("checking target %.6f degrees off its bearing\n", angle);
    if (angle > limit)
        fprintf(stderr, "not confirmed\n");
    return angle <= limit;
}

int main(void)
{
    double input[18], poses[48], bearing[3], camera[3], score;
    uint32_t updates[4], lifted[4], count, best, refusal;
    for (int k = 0; k < 3; k++) {
        for (int i = 0; i < 3; i++)
            input[3 * k + i] = plate[k][i];
        normalise(directions[k], input + 9 + 3 * k);
    }
    normalise(directions[3], bearing);

    /* one to four poses, or a refusal */
    refusal = p3p_solve(input, poses, updates, lifted, &count);
    if (refusal != 0)
        return refused("solve", refusal);
    refusal = p3p_choose(poses, count, plate[3], bearing, &best, &score);
    if (refusal != 0)
        return refused("choose", refusal);
    print_poses(poses, lifted, count, best);
    if (lifted[best - 1])
        fprintf(stderr, "the pose is lifted: move the camera aside and measure again\n");
    if (!confirmed(score))
        return 1;
    apply(poses + 12 * (best - 1), hole, camera); /* rotation times point plus translation */
    printf("hole at camera %.6f %.6f %.6f\n", camera[0], camera[1], camera[2]);
    return 0;
}
