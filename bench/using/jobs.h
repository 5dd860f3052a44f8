// Plates of a grid job whose truth is known far better than any error measured, and the hole by
// four ways. Plate points and the job's place are whole multiples of 2^-20 m, so that no coordinate
// and no difference of two is rounded, and the bearings are made from the differences.
#include "measure.h"
#include "quaternion.h"

static const double STEP = 0x1p-20, PI = 3.14159265358979323846;

// Half the width of a plate in steps, and half its thickness: 0.4 m and 6 mm, as in plates.h.
enum { WIDE = 419430, THICK = 6291 };

// A plate before it is seen: points in metres from the job's place, the true pose of these, the
// place, and by which part of its length each bearing is too long.
struct scene {
    double points[POINTS][3], place[3], longer[TARGETS];
    struct pose pose;
};

static void random_point(uint64_t *state, double point[3]) {
    for (int k = 0; k < 3; k++)
        point[k] = k < 2 ? whole(state, -WIDE, WIDE) * STEP : whole(state, -THICK, THICK) * STEP;
}

// At the job's own zero, with bearings longer or shorter by up to that part.
static void random_scene(uint64_t *state, double part, struct scene *scene) {
    random_pose(state, 1, &scene->pose);
    for (int index = 0; index < POINTS; index++)
        random_point(state, scene->points[index]);
    for (int i = 0; i < TARGETS; i++)
        scene->longer[i] = part * range(state, -1, 1);
    for (int k = 0; k < 3; k++)
        scene->place[k] = 0;
}

static void see(const struct scene *scene, struct plate *plate) {
    const struct pose *pose = &scene->pose;
    plate->mm = 1000;
    for (int index = 0; index < POINTS; index++) {
        const double *point = scene->points[index];
        double world[3];
        real camera[3];
        for (int k = 0; k < 3; k++) {
            world[k] = scene->place[k] + point[k];
            camera[k] = pose->columns[0][k] * point[0] + pose->columns[1][k] * point[1];
            camera[k] += pose->columns[2][k] * point[2] + pose->shift[k];
        }
        enter(plate, index, world, camera);
    }
    for (int i = 0; i < 3 * TARGETS; i++)
        plate->input[9 + i] *= 1 + scene->longer[i / 3];
}

// ---- the four ways

enum { PLAIN, PLAIN_TRUED, ABOUT, ABOUT_TRUED, WAYS };
static const char *const way_names[WAYS] = {"plain", "plain, trued", "about", "about, trued"};

// How far the hole is off as pushed and after truing, by the pose that puts it nearest.
static void two_ways(const struct plate *plate, const double poses[48], uint32_t count,
                     double errors[2]) {
    const double *pose = poses + 12 * nearest(plate, poses, count);
    double trued[3];
    by_quaternion(pose, plate->hole, trued);
    errors[0] = error_of_pose(plate, pose);
    errors[1] = error_mm(plate, trued);
}

// In millimetres, infinite where a solve refuses.
static void four_ways(const struct plate *plate, double errors[WAYS]) {
    double poses[48], origin[3];
    uint32_t updates[4], lifted[4], count;
    struct plate moved = *plate;
    for (int w = 0; w < WAYS; w++)
        errors[w] = INFINITY;
    if (p3p_solve(plate->input, poses, updates, lifted, &count) == 0)
        two_ways(plate, poses, count, errors + PLAIN);
    if (p3p_solve_about(plate->input, poses, updates, lifted, &count, origin))
        return;
    for (int i = 0; i < 3; i++)
        moved.hole[i] -= origin[i];
    two_ways(&moved, poses, count, errors + ABOUT);
}
