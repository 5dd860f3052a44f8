// What a plate saves (document 02, §4): a thousand frames of one plate, solved by p3p_solve and by
// p3p_plate_solve in turns, each turn over all frames; previews of it with its third target at its
// own place (§5); and the making of a plate. Before that all must have the same answers, bit for
// bit, plates whose stored numbers are altered others, and previews of these the same again.
//   plates [TURNS]
// Sorts of plates: those of bench/using/plates.h that are not thin, the camera before them, within
// 60 degrees of their normal and half a metre to six metres away; and one that the camera sees in
// its plane of symmetry, where the given ordering is not usable. Processor time.
#include "../using/plates.h"
#include <stdio.h>
#include <stdlib.h>
#include <time.h>

enum { FRAMES = 1000, TURNS = 401, MOST = 100000, MIRRORED = KINDS, SORTS, SEED = 20261117 };

// The frames of one plate: its points and the bearings of each.
static double inputs[FRAMES][18], points[FRAMES][9];

struct answer {
    double poses[48];
    uint32_t updates[4], lifted[4], count, number;
};

// A plate as it is stored.
struct stored {
    double numbers[21];
    uint32_t has_inverse;
};

// ---- frames

// Whether the camera stands before the plate, within 60 degrees of its normal. The plate's z points
// away from the camera.
static int is_before(const struct pose *pose) {
    real depth = dot(pose->columns[2], pose->shift);
    return depth > 0.5L * sqrtl(dot(pose->shift, pose->shift));
}

// Enters the bearings of a frame; 0 where a target is not before the camera.
static int see(const double local[9], const struct pose *pose, double bearings[9]) {
    for (int k = 0; k < 3; k++) {
        const double *point = local + 3 * k;
        for (int i = 0; i < 3; i++)
            bearings[3 * k + i] = (double)(pose->columns[0][i] * point[0] +
                                           pose->columns[1][i] * point[1] +
                                           pose->columns[2][i] * point[2] + pose->shift[i]);
        if (bearings[3 * k + 2] <= 0)
            return 0;
        normalise(bearings + 3 * k);
    }
    return 1;
}

// A plate of a kind of plates.h: its points from its own zero, in steps, and in the world.
static void random_points(uint64_t *state, int kind, double local[9], double world[9]) {
    double per_metre = kind % 2 ? 4096 : 10000, steps = kind % 2 ? 1 : per_metre;
    double offset[3] = {0, 0, 0};
    struct plate plate;
    if (kind / 2)
        random_offset(state, per_metre, offset);
    do {
        for (int i = 0; i < 9; i++) {
            local[i] = i % 3 < 2 ? whole(state, -4000, 4000) : whole(state, -60, 60);
            world[i] = (local[i] + offset[i % 3]) / steps;
        }
        memcpy(plate.input, world, sizeof points[0]);
    } while (is_thin(&plate));
}

static void random_frames(uint64_t *state, int kind) {
    double local[9], world[9];
    for (int f = 0; f < FRAMES; f++) // others of the kind, to be made
        random_points(state, kind, local, points[f]);
    random_points(state, kind, local, world);
    for (int f = 0; f < FRAMES;) {
        struct pose pose;
        random_pose(state, kind % 2 ? 4096 : 10000, &pose);
        memcpy(inputs[f], world, sizeof world);
        f += is_before(&pose) && see(local, &pose, inputs[f] + 9);
    }
}

// The third target in the plane x = 0, the other two on both sides of it, and the camera in that
// plane too: the bearings are each other's mirror images, bit for bit, and the leading coefficient
// of the cubic is zero.
static void mirrored_frames(uint64_t *state) {
    for (int f = 0; f < FRAMES; f++) {
        double wide = whole(state, 1000, 4000) / 10000, high = whole(state, 1000, 4000) / 10000;
        double other[9] = {-wide, 0, 0, wide, 0, 0, 0, high, 0};
        memcpy(points[f], other, sizeof other);
        memcpy(inputs[f], points[0], sizeof other);
        double turn = range(state, -1, 1), depth = range(state, 0.5, 6);
        struct pose pose = {{{1, 0, 0}, {0, cosl(turn), sinl(turn)}, {0, -sinl(turn), cosl(turn)}},
                            {0, range(state, -0.4, 0.4) * depth, depth}};
        f -= !see(points[0], &pose, inputs[f] + 9);
    }
}

// ---- the solves

static void solve(const double input[18], struct answer *answer) {
    answer->number =
        p3p_solve(input, answer->poses, answer->updates, answer->lifted, &answer->count);
}

static void solve_plate(const struct stored *plate, const double input[18],
                        struct answer *answer) {
    answer->number = p3p_plate_solve(plate->numbers, plate->has_inverse, input + 9, answer->poses,
                                     answer->updates, answer->lifted, &answer->count);
}

static void preview_at(const struct stored *plate, const double third[3], const double input[18],
                       struct answer *answer) {
    double edges[3];
    answer->number =
        p3p_plate_preview(plate->numbers, plate->has_inverse, 2, third, input + 9, answer->poses,
                          answer->updates, answer->lifted, &answer->count, edges);
}

static void preview(const struct stored *plate, const double input[18], struct answer *answer) {
    preview_at(plate, input + 6, input, answer);
}

// With one coordinate the next double.
static void preview_moved(const struct stored *plate, const double input[18],
                          struct answer *answer) {
    double third[3] = {input[6], nextafter(input[7], INFINITY), input[8]};
    preview_at(plate, third, input, answer);
}

static void make(const double world[9], struct stored *plate) {
    if (p3p_plate_make(world, plate->numbers, &plate->has_inverse)) {
        fprintf(stderr, "a plate was refused\n");
        exit(1);
    }
}

// Answers a frame with a plate.
typedef void answerer(const struct stored *, const double[18], struct answer *);

// How many of the frames have another answer with a plate than without; and how many poses they
// have without.
static int differing(const struct stored *plate, answerer *answer, long *found) {
    int count = 0;
    *found = 0;
    for (int f = 0; f < FRAMES; f++) {
        struct answer without, with;
        memset(&without, 0xa5, sizeof without);
        memset(&with, 0xa5, sizeof with);
        solve(inputs[f], &without);
        answer(plate, inputs[f], &with);
        count += memcmp(&without, &with, sizeof with) != 0;
        *found += without.number == 0 ? without.count : 0;
    }
    return count;
}

// Plates as made and altered: one of the stored numbers is the next double, or the inverse is said
// to be lacking.
enum { AS_MADE = 0, EDGE = 1, ENTRY = 2, LACKING = 4 };

static void alter(struct stored *plate, int which) {
    if (which & EDGE)
        plate->numbers[9] = nextafter(plate->numbers[9], INFINITY);
    if (which & ENTRY)
        plate->numbers[12] = nextafter(plate->numbers[12], INFINITY);
    if (which & LACKING)
        plate->has_inverse = 0;
}

// What is compared with the solve without a plate: an altered plate, and what answers with it.
enum { MADE, OTHER_EDGE, OTHER_ENTRY, NO_INVERSE, SHOWN, SHOWN_OF_ALTERED, SHOWN_MOVED, COMPARED };
static const struct {
    const char *name;
    int which;
    answerer *answer;
} compared[COMPARED] = {
    {"as made", AS_MADE, solve_plate},
    {"a squared edge, the next double", EDGE, solve_plate},
    {"an entry of the inverse, the next double", ENTRY, solve_plate},
    {"said to have no inverse", LACKING, solve_plate},
    {"a preview, as made", AS_MADE, preview},
    {"a preview, all three altered", EDGE | ENTRY | LACKING, preview},
    {"a preview, a coordinate the next double", AS_MADE, preview_moved},
};

// ---- times

enum { WITHOUT, WITH, PREVIEW, MAKING, RATIO, FIGURES };
static double figures[FIGURES][MOST];

static double spent(void) {
    struct timespec t;
    clock_gettime(CLOCK_THREAD_CPUTIME_ID, &t);
    return (double)t.tv_sec * 1e9 + (double)t.tv_nsec;
}

// Nanoseconds a frame of one pass. `sink` keeps the compiler from leaving calls out.
static volatile uint32_t sink;

static double pass(int figure, const struct stored *plate) {
    struct answer answer = {.number = 0};
    struct stored other;
    double start = spent();
    for (int f = 0; f < FRAMES; f++)
        if (figure == WITHOUT)
            solve(inputs[f], &answer);
        else if (figure == WITH)
            solve_plate(plate, inputs[f], &answer);
        else if (figure == PREVIEW)
            preview(plate, inputs[f], &answer);
        else
            make(points[f], &other);
    double end = spent();
    sink = answer.number;
    return (end - start) / FRAMES;
}

static int ascending(const void *a, const void *b) {
    double x = *(const double *)a, y = *(const double *)b;
    return (x > y) - (x < y);
}

// The median, and between what nine tenths of the turns lie.
static void print_figure(int figure, int turns, int digits) {
    double *values = figures[figure];
    qsort(values, (size_t)turns, sizeof *values, ascending);
    printf(" %.*f | %.*f to %.*f |", digits, values[turns / 2], digits, values[turns / 20],
           digits, values[turns - 1 - turns / 20]);
}

static void measure(const struct stored *plate, int turns) {
    for (int turn = 0; turn < turns; turn++) {
        // whichever is first in a turn is second in the next
        int first = turn % 2 ? WITH : WITHOUT;
        figures[first][turn] = pass(first, plate);
        figures[WITH + WITHOUT - first][turn] = pass(WITH + WITHOUT - first, plate);
        figures[PREVIEW][turn] = pass(PREVIEW, plate);
        figures[MAKING][turn] = pass(MAKING, plate);
        figures[RATIO][turn] = figures[WITH][turn] / figures[WITHOUT][turn];
    }
}

static const char *name_of(int sort) {
    return sort == MIRRORED ? "metres, seen in its plane of symmetry (retry)" : kind_names[sort];
}

// A row of the first table, and the numbers of one of the second.
static void print_sort(int sort, int turns, int differ[COMPARED]) {
    uint64_t state = SEED + (uint64_t)sort;
    struct stored plate;
    long found = 0;
    if (sort == MIRRORED)
        mirrored_frames(&state);
    else
        random_frames(&state, sort);
    make(inputs[0], &plate);
    for (int c = 0; c < COMPARED; c++) {
        struct stored altered = plate;
        alter(&altered, compared[c].which);
        differ[c] = differing(&altered, compared[c].answer, &found);
    }
    measure(&plate, turns);
    printf("| %s |", name_of(sort));
    print_figure(RATIO, turns, 3);
    for (int figure = WITHOUT; figure <= MAKING; figure++)
        print_figure(figure, turns, figure == MAKING ? 1 : 0);
    printf(" %.2f |\n", (double)found / FRAMES);
}

// Whether the plate as made and its previews have the answers without, and those altered are told
// from it. In the retry the stored inverse has no part.
static int is_right(int sort, const int differ[COMPARED]) {
    int inverse = sort != MIRRORED;
    return differ[MADE] == 0 && differ[OTHER_EDGE] > 0 && (differ[OTHER_ENTRY] > 0) == inverse &&
           (differ[NO_INVERSE] > 0) == inverse && differ[SHOWN] == 0 &&
           differ[SHOWN_OF_ALTERED] == 0 && differ[SHOWN_MOVED] > 0;
}

int main(int argc, char **argv) {
    int turns = argc > 1 ? atoi(argv[1]) : TURNS, right = 1, differ[SORTS][COMPARED];
    if (turns < 1 || turns > MOST) {
        fprintf(stderr, "usage: plates [TURNS]\n");
        return 1;
    }
    printf("%d frames of one plate, %d turns: medians, and between what nine tenths of the turns "
           "lie\n| plate | with / without | | without, ns | | with, ns | | a preview, ns | "
           "| making one, ns | | poses a frame |\n"
           "|---|---:|---|---:|---|---:|---|---:|---|---:|---|---:|\n",
           FRAMES, turns);
    for (int sort = 0; sort < SORTS; sort++)
        print_sort(sort, turns, differ[sort]);
    printf("\nFrames whose answer with a plate is another than without\n| plate |");
    for (int c = 0; c < COMPARED; c++)
        printf(" %s |", compared[c].name);
    printf("\n|---|");
    for (int c = 0; c < COMPARED; c++)
        printf("---:|");
    printf("\n");
    for (int sort = 0; sort < SORTS; sort++) {
        printf("| %s |", name_of(sort));
        for (int c = 0; c < COMPARED; c++)
            printf(" %d |", differ[sort][c]);
        printf("\n");
        right &= is_right(sort, differ[sort]);
    }
    if (!right)
        fprintf(stderr, "plates: answers differ, or an altered plate was not noticed\n");
    return !right;
}
