// What truing by a unit quaternion adds to the hole's error on grid jobs: on how many of random
// frames more than 0.1 and 0.5 mm, and the most that was found, first among these, then from the
// worst of them by small changes, which are kept where it adds more. The gate passes a matrix whose
// columns are off by up to 1e-10 in all; the frames found lie just below.
#include "jobs.h"

enum { FRAMES = 400000, CLIMBS = 24, CHANGES = 60000 };

// Where jobs are, |x| and |y| in metres from zero. The last has a zone's number before the easting.
struct grid {
    const char *name;
    double x[2], y[2];
};

enum { GRIDS = 3 };
static const struct grid grids[GRIDS] = {
    {"x 200 to 800, y 3,000 to 6,000", {2e5, 8e5}, {3e6, 6e6}},
    {"x and y 3,000 to 6,000", {3e6, 6e6}, {3e6, 6e6}},
    {"x 32,200 to 32,800, y 3,000 to 6,000", {3.22e7, 3.28e7}, {3e6, 6e6}},
};

// Whether plates may be thin, by which part bearings may be too long or too short, and from how
// many of the worst the search goes on: more where rounding decides, which small changes shuffle.
struct kind {
    int thin;
    double part;
    int climbs;
};

enum { KINDS_SEARCHED = 6 };
static const struct kind kinds[KINDS_SEARCHED] = {{0, 0, CLIMBS}, {1, 0, CLIMBS}, {0, 5e-13, 4},
                                                  {0, 2e-12, 4},  {0, 1e-11, 4},  {0, 1e-10, 4}};

struct search {
    const struct grid *grid;
    const struct kind *kind;
};

struct found {
    struct scene scene;
    double errors[WAYS];
};

static double added(const struct found *found) {
    return found->errors[PLAIN_TRUED] - found->errors[PLAIN];
}

// Whether the scene is one of those searched; then its errors are found too.
static int measure(const struct search *search, struct found *found) {
    struct plate plate;
    see(&found->scene, &plate);
    if (!search->kind->thin && is_thin(&plate))
        return 0;
    four_ways(&plate, found->errors);
    return found->errors[PLAIN] < INFINITY && found->errors[ABOUT] < INFINITY;
}

static void random_place(uint64_t *state, const struct grid *grid, double place[3]) {
    place[0] = sign(state) * rint(range(state, grid->x[0], grid->x[1]));
    place[1] = sign(state) * rint(range(state, grid->y[0], grid->y[1]));
    place[2] = whole(state, 0, 4000);
}

// ---- small changes

// Moves a value by up to that much, and not out of the range.
static double nudged(uint64_t *state, double value, double most, double low, double high) {
    return fmin(fmax(value + most * range(state, -1, 1), low), high);
}

static void nudge_point(uint64_t *state, double size, double point[3]) {
    for (int k = 0; k < 3; k++) {
        double half = (k < 2 ? WIDE : THICK) * STEP;
        point[k] = rint(nudged(state, point[k], size * half, -half, half) / STEP) * STEP;
    }
}

static void nudge_pose(uint64_t *state, double size, struct pose *pose) {
    for (int i = 0; i < 6; i++)
        pose->columns[i / 3][i % 3] += size * range(state, -1, 1);
    unit(pose->columns[0]);
    cross(pose->columns[0], pose->columns[1], pose->columns[2]);
    unit(pose->columns[2]);
    cross(pose->columns[2], pose->columns[0], pose->columns[1]);
    double depth = nudged(state, (double)pose->shift[2], 3 * size, 0.5, 6), side = 0.4 * depth;
    pose->shift[2] = depth;
    for (int k = 0; k < 2; k++)
        pose->shift[k] = nudged(state, (double)pose->shift[k], size, -side, side);
}

static void nudge_lengths(uint64_t *state, double size, double part, double longer[TARGETS]) {
    for (int i = 0; i < TARGETS; i++)
        longer[i] = nudged(state, longer[i], size * part, -part, part);
}

// Changes one thing by a size between 2^-17 and all of its range.
static void change(uint64_t *state, const struct search *search, struct scene *scene) {
    double size = ldexp(1, -(int)(word(state) % 18));
    switch (word(state) % 4) {
    case 0:
        nudge_point(state, size, scene->points[word(state) % TARGETS]);
        break;
    case 1:
        nudge_pose(state, size, &scene->pose);
        break;
    case 2:
        random_place(state, search->grid, scene->place);
        break;
    default:
        nudge_lengths(state, size, search->kind->part, scene->longer);
    }
}

static void climb(uint64_t *state, const struct search *search, struct found *best) {
    for (long n = 0; n < CHANGES; n++) {
        struct found other = *best;
        change(state, search, &other.scene);
        if (measure(search, &other) && added(&other) > added(best))
            *best = other;
    }
}

// ---- the search

// Puts a frame among the worst, which are in order, if it belongs there.
static void keep(struct found worst[CLIMBS], const struct found *found) {
    int place = CLIMBS;
    while (place > 0 && added(found) > added(&worst[place - 1]))
        place--;
    if (place == CLIMBS)
        return;
    memmove(worst + place + 1, worst + place, (size_t)(CLIMBS - 1 - place) * sizeof *worst);
    worst[place] = *found;
}

// The worst of random frames; prints how many there were, on how many truing adds how much, the
// most, and the most by which it changes the error about the first target.
static void draw(uint64_t *state, const struct search *search, struct found worst[CLIMBS]) {
    long frames = 0, tenth = 0, half = 0;
    double about = 0;
    memset(worst, 0, CLIMBS * sizeof *worst);
    for (long n = 0; n < FRAMES; n++) {
        struct found found;
        random_scene(state, search->kind->part, &found.scene);
        random_place(state, search->grid, found.scene.place);
        if (!measure(search, &found))
            continue;
        frames++;
        tenth += added(&found) > 0.1;
        half += added(&found) > 0.5;
        about = fmax(about, fabs(found.errors[ABOUT_TRUED] - found.errors[ABOUT]));
        keep(worst, &found);
    }
    printf(" %ld | %ld | %ld | %.2f | %.1e |", frames, tenth, half, added(&worst[0]), about);
}

static void print_row(const struct search *search, struct found *most) {
    static struct found worst[CLIMBS];
    uint64_t state = SEED;
    printf("| %s | %s | %g |", search->grid->name, search->kind->thin ? "thin too" : "not thin",
           search->kind->part);
    draw(&state, search, worst);
    for (int i = 0; i < search->kind->climbs; i++) {
        climb(&state, search, &worst[i]);
        if (added(&worst[i]) > added(&worst[0]))
            worst[0] = worst[i];
    }
    for (int w = 0; w < WAYS; w++)
        printf(" %.1e |", worst[0].errors[w]);
    printf("\n");
    if (added(&worst[0]) > added(most))
        *most = worst[0];
}

// ---- what a frame looks like

// How far the columns are off, as the gate sums it.
static double column_error(const double r[9]) {
    double error = 0;
    for (int i = 0; i < 3; i++)
        for (int j = i; j < 3; j++) {
            const double *a = r + 3 * i, *b = r + 3 * j;
            error += fabs(a[0] * b[0] + a[1] * b[1] + a[2] * b[2] - (i == j));
        }
    return error;
}

static double distance(const double a[3], const double b[3]) {
    real edge[3];
    minus(a, b, edge);
    return (double)sqrtl(dot(edge, edge));
}

// The pose that is chosen by the checking target, which is to be the one that was judged.
static void print_pose(const struct plate *plate) {
    double poses[48], origin[3], score;
    uint32_t updates[4], lifted[4], count, best;
    if (p3p_solve_about(plate->input, poses, updates, lifted, &count, origin) ||
        p3p_choose_about(poses, count, origin, plate->target, plate->bearing, &best, &score))
        return;
    const double *pose = poses + 12 * (best - 1);
    struct plate moved = *plate;
    for (int i = 0; i < 3; i++)
        moved.hole[i] -= origin[i];
    printf("- The choice takes pose %u of %u, %s nearest to the truth; score %.1e.\n", best, count,
           best == nearest(&moved, poses, count) + 1 ? "the" : "not the", score);
    printf("- R turns by %.1f degrees; its columns are off by %.3e.\n",
           acos((pose[0] + pose[4] + pose[8] - 1) / 2) * 180 / PI,
           column_error(pose));
}

static void print_frame(const char *name, const struct found *found) {
    const struct scene *scene = &found->scene;
    const double *p0 = scene->points[0], *p1 = scene->points[1], *p2 = scene->points[2];
    struct plate plate;
    see(scene, &plate);
    printf("\nThe worst with %s:\n\n", name);
    printf("- Edges %.3f, %.3f and %.3f m; the camera %.2f m from the plate's middle.\n",
           distance(p0, p1), distance(p0, p2), distance(p1, p2),
           (double)sqrtl(dot(scene->pose.shift, scene->pose.shift)));
    printf("- First target at %.6f, %.6f, %.6f.\n", plate.input[0], plate.input[1],
           plate.input[2]);
    printf("- Bearings' lengths off by %.1e, %.1e, %.1e.\n", scene->longer[0], scene->longer[1],
           scene->longer[2]);
    print_pose(&plate);
    printf("- The hole is off by");
    for (int w = 0; w < WAYS; w++)
        printf(" %.1e mm (%s)%s", found->errors[w], way_names[w], w + 1 < WAYS ? "," : ".\n");
}

int main(void) {
    static struct found most[GRIDS];
    printf("| jobs, km from zero | plates | lengths off by up to | frames "
           "| truing adds over 0.1 mm | over 0.5 mm | most, mm | about: most, mm "
           "| searched further, hole off, mm: plain | plain, trued | about | about, trued |\n"
           "|---|---|---:|---:|---:|---:|---:|---:|---:|---:|---:|---:|\n");
    for (int g = 0; g < GRIDS; g++)
        for (int k = 0; k < KINDS_SEARCHED; k++) {
            struct search search = {&grids[g], &kinds[k]};
            print_row(&search, &most[g]);
        }
    for (int g = 0; g < GRIDS; g++)
        print_frame(grids[g].name, &most[g]);
    return 0;
}
