/* One plate for many frames: made once, solved with in each frame, with one target measured again,
 * and kept in a file between two jobs.
 *
 *   cc -O2 -Iinclude include/plate.c crates/p3p/out/libp3p.a -lm -o target/plate
 *   target/plate
 */
#include "p3p.h"
#include <math.h>
#include <stdio.h>

/* A plate: the library writes both, and both are kept. */
struct plate {
    double numbers[21];
    uint32_t has_inverse;
};

/* The targets in metres, the third as it was measured again, the checking target, and the hole. */
static const double points[9] = {0.0, 0.0, 0.0, 0.5, 0.0, 0.0, 0.0, 0.375, 0.0};
static const double again[3] = {0.0, 0.376, 0.001};
static const double checking[3] = {0.5, 0.375, 0.125};
static const double hole[3] = {0.25, -0.5, 0.0};

/* The directions in which the camera sees the targets, the last for checking, in three frames of
 * the plate as it was made and one of it with its third target as measured again. */
static const double frames[4][4][3] = {
    {{-0.25, -0.125, 2.0}, {0.15, -0.125, 2.3}, {-0.25, 0.25, 2.0}, {0.075, 0.25, 2.4}},
    {{0.1, -0.2, 1.5}, {0.6, -0.2, 1.5}, {0.1, 0.175, 1.5}, {0.6, 0.175, 1.625}},
    {{-0.2, -0.1, 3.0}, {0.1, -0.1, 2.6}, {-0.2, 0.275, 3.0}, {0.2, 0.275, 2.675}},
    {{0.1, -0.2, 1.5}, {0.6, -0.2, 1.5}, {0.1, 0.176, 1.501}, {0.6, 0.175, 1.625}}};

static void normalise(const double direction[3], double bearing[3])
{
    double x = direction[0], y = direction[1], z = direction[2];
    double length = sqrt(x * x + y * y + z * z);
    for (int i = 0; i < 3; i++)
        bearing[i] = direction[i] / length;
}

static void apply(const double pose[12], const double point[3], double camera[3])
{
    for (int i = 0; i < 3; i++)
        camera[i] = pose[i] * point[0] + pose[3 + i] * point[1] + pose[6 + i] * point[2]
                    + pose[9 + i];
}

/* Solves a frame with a plate, and prints where the hole is; example.c asks more of the choice.
 * Returns 0, or the refusal. */
static uint32_t find_hole(const struct plate *plate, int frame)
{
    double bearings[9], bearing[3], poses[48], camera[3], score;
    uint32_t updates[4], lifted[4], count, best, refusal;
    for (int k = 0; k < 3; k++)
        normalise(frames[frame][k], bearings + 3 * k);
    normalise(frames[frame][3], bearing);

    /* the poses that p3p_solve gives of the plate's points and these bearings, bit for bit */
    refusal = p3p_plate_solve(plate->numbers, plate->has_inverse, bearings, poses, updates, lifted,
                              &count);
    if (refusal == 0)
        refusal = p3p_choose(poses, count, checking, bearing, &best, &score);
    if (refusal != 0)
        return refusal;
    apply(poses + 12 * (best - 1), hole, camera);
    printf("frame %d: best %u of %u, hole at camera %.6f %.6f %.6f\n", frame + 1, best, count,
           camera[0], camera[1], camera[2]);
    return 0;
}

static void print_edges(const struct plate *plate)
{
    const double *edges = plate->numbers + 9; /* squared: 0 to 1, 0 to 2, 1 to 2 */
    printf("edges %.6f %.6f %.6f m\n", sqrt(edges[0]), sqrt(edges[1]), sqrt(edges[2]));
}

/* Writes a plate to a file, in this machine's byte order. Returns whether it was done. */
static int keep(const struct plate *plate, FILE *file)
{
    return fwrite(plate->numbers, sizeof(double), 21, file) == 21
           && fwrite(&plate->has_inverse, sizeof(uint32_t), 1, file) == 1;
}

/* Reads it back. */
static int bring_back(struct plate *plate, FILE *file)
{
    return fread(plate->numbers, sizeof(double), 21, file) == 21
           && fread(&plate->has_inverse, sizeof(uint32_t), 1, file) == 1;
}

static int refused(uint32_t refusal)
{
    fprintf(stderr, "refused %u\n", refusal);
    return 1;
}

int main(void)
{
    struct plate plate, kept;
    uint32_t refusal;
    FILE *file;

    /* made once, for all frames */
    refusal = p3p_plate_make(points, plate.numbers, &plate.has_inverse);
    for (int frame = 0; frame < 3 && refusal == 0; frame++)
        refusal = find_hole(&plate, frame);
    if (refusal != 0)
        return refused(refusal);
    print_edges(&plate);

    /* the third target was measured again: targets have the numbers 0, 1 and 2 */
    refusal = p3p_plate_replace(plate.numbers, &plate.has_inverse, 2, again);
    if (refusal != 0)
        return refused(refusal);
    print_edges(&plate);

    /* there is no target 3: refused, and the plate is as it was */
    refusal = p3p_plate_replace(plate.numbers, &plate.has_inverse, 3, again);
    printf("target 3 refused %u\n", refusal);

    /* kept between two jobs, and taken as it was stored */
    file = tmpfile();
    if (file == NULL || !keep(&plate, file)) {
        perror("cannot write the plate");
        return 1;
    }
    rewind(file);
    if (!bring_back(&kept, file)) {
        perror("cannot read the plate");
        return 1;
    }
    fclose(file);
    refusal = find_hole(&kept, 3);
    return refusal == 0 ? 0 : refused(refusal);
}
