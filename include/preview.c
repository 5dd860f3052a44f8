/* A target of a mounted plate is measured again, and the fitter looks before the plate takes it:
 * the edges that would be stored, where the hole would be, and how the checking target would score.
 *
 *   cc -O2 -Iinclude include/preview.c crates/p3p/out/libp3p.a -lm -o target/preview
 *   target/preview
 */
#include "p3p.h"
#include <math.h>
#include <stdio.h>
#include <string.h>

/* A plate: the library writes both, and both are kept. */
struct plate {
    double numbers[21];
    uint32_t has_inverse;
};

/* The targets in metres, the checking target, and the hole. */
static const double points[9] = {0.0, 0.0, 0.0, 0.5, 0.0, 0.0, 0.0, 0.375, 0.0};
static const double checking[3] = {0.5, 0.375, 0.125};
static const double hole[3] = {0.25, -0.5, 0.0};
static const double degrees = 57.29577951308232;
/* The angle in degrees up to which the checking target confirms a pose, by your measuring error. */
static const double limit = 0.01;

/* The directions in which the camera sees the targets in the frame at hand, the last for checking.
 * The third target has been knocked since the plate was made. */
static const double directions[4][3] = {
    {-0.25, -0.125, 2.0}, {0.15, -0.125, 2.3}, {-0.253, 0.255, 2.004}, {0.075, 0.25, 2.4}};

/* What the fitter enters, one after another. */
struct entry {
    const char *name;
    uint32_t target; /* 0, 1 or 2 */
    double point[3];
};
static const struct entry entries[] = {
    {"target 3", 3, {0.0, 0.38, 0.005}},
    {"a NaN", 2, {0.0, NAN, 0.005}},
    {"in a line", 2, {1.0, 0.0, 0.0}},
    {"a digit off", 2, {0.0, 0.39, 0.005}},
    {"as measured", 2, {0.0, 0.38, 0.005}},
};

/* The frame's bearings. */
static double bearings[9], bearing[3];

/* What the frame shows with a plate: its squared edges; then a refusal, or of the best pose whether
 * it is lifted, how far the checking target is off its bearing, in degrees, and where the hole
 * is. */
struct view {
    double edges[3];
    uint32_t refusal, lifted;
    double angle, camera[3];
};

static void normalise(const double direction[3], double unit[3])
{
    double x = direction[0], y = direction[1], z = direction[2];
    double length = sqrt(x * x + y * y + z * z);
    for (int i = 0; i < 3; i++)
        unit[i] = direction[i] / length;
}

static void apply(const double pose[12], const double point[3], double camera[3])
{
    for (int i = 0; i < 3; i++)
        camera[i] = pose[i] * point[0] + pose[3 + i] * point[1] + pose[6 + i] * point[2]
                    + pose[9 + i];
}

/* Chooses among a view's poses, and finds the hole by the best. */
static void find_hole(struct view *view, const double poses[48], const uint32_t lifted[4],
                      uint32_t count)
{
    uint32_t best;
    double score;
    if (view->refusal == 0)
        view->refusal = p3p_choose(poses, count, checking, bearing, &best, &score);
    if (view->refusal != 0)
        return;
    view->lifted = lifted[best - 1];
    view->angle = atan(sqrt(score)) * degrees;
    apply(poses + 12 * (best - 1), hole, view->camera);
}

/* The view with a plate as it is stored. */
static void look(const struct plate *plate, struct view *view)
{
    double poses[48];
    uint32_t updates[4], lifted[4], count = 0;
    memcpy(view->edges, plate->numbers + 9, sizeof view->edges);
    view->refusal = p3p_plate_solve(plate->numbers, plate->has_inverse, bearings, poses, updates,
                                    lifted, &count);
    find_hole(view, poses, lifted, count);
}

/* The view with the plate as it would be after an entry. */
static void look_ahead(const struct plate *plate, const struct entry *entry, struct view *view)
{
    double poses[48];
    uint32_t updates[4], lifted[4], count = 0;
    /* the plate is only read; the edges are written in any case */
    view->refusal = p3p_plate_preview(plate->numbers, plate->has_inverse, entry->target,
                                      entry->point, bearings, poses, updates, lifted, &count,
                                      view->edges);
    find_hole(view, poses, lifted, count);
}

/* Whether the new point may be stored: the checking target confirms it by a pose that is not
 * lifted, and no worse than the present one. */
static int is_acceptable(const struct view *then, const struct view *now)
{
    return then->refusal == 0 && !then->lifted && then->angle <= limit
           && (now->refusal != 0 || then->angle <= now->angle);
}

/* A line in millimetres and degrees. */
static void print_view(const char *name, const struct view *view, const char *verdict)
{
    printf("%-11s", name);
    for (int i = 0; i < 3; i++)
        printf(" %8.3f", 1000 * sqrt(view->edges[i]));
    if (view->refusal != 0) {
        printf("  refused %-26u", view->refusal);
    } else {
        for (int i = 0; i < 3; i++)
            printf(" %8.3f", 1000 * view->camera[i]);
        printf(" %8.4f", view->angle);
    }
    printf("  %s\n", verdict);
}

int main(void)
{
    struct plate plate;
    struct view now, then;
    int same;
    uint32_t refusal = p3p_plate_make(points, plate.numbers, &plate.has_inverse);
    if (refusal != 0) {
        fprintf(stderr, "refused %u\n", refusal);
        return 1;
    }
    for (int k = 0; k < 3; k++)
        normalise(directions[k], bearings + 3 * k);
    normalise(directions[3], bearing);
    look(&plate, &now);
    printf("%-12s %-25s  %-26s checking\n", "mm, degrees", "edges", "hole at camera");
    print_view("stored", &now, "as made");

    for (size_t k = 0; k < sizeof entries / sizeof entries[0]; k++) {
        const struct entry *entry = &entries[k];
        look_ahead(&plate, entry, &then);
        if (!is_acceptable(&then, &now)) {
            print_view(entry->name, &then, "not accepted");
            continue;
        }
        print_view(entry->name, &then, "accepted");
        /* not refused, since the preview was not; the hole is the one shown, bit for bit */
        p3p_plate_replace(plate.numbers, &plate.has_inverse, entry->target, entry->point);
        look(&plate, &now);
        same = memcmp(now.camera, then.camera, sizeof now.camera) == 0;
        print_view("stored", &now, same ? "as shown" : "not as shown");
    }
    return 0;
}
