// Three ways from a pose to the hole before the camera, and how far from the true camera point each
// ends: R * x + t as it stands, by way of the camera centre, and by way of a unit quaternion as the
// Rust goes. The pose is the one that puts the hole nearest; in the error are the rounding of the
// coordinates and bearings that go in, the solve's own, and the way's.
#include "measure.h"
#include "quaternion.h"

typedef void way(const double pose[12], const double x[3], double out[3]);

// c = -R^T t, then R * (x - c)
static void by_centre(const double pose[12], const double x[3], double out[3]) {
    double turned[12] = {0}, from_centre[3];
    memcpy(turned, pose, 9 * sizeof *pose);
    for (int i = 0; i < 3; i++) {
        const double *column = pose + 3 * i, *t = pose + 9;
        double centre = -(column[0] * t[0] + column[1] * t[1] + column[2] * t[2]);
        from_centre[i] = x[i] - centre;
    }
    apply(turned, from_centre, out);
}

enum { WAYS = 3 };
static const struct {
    const char *name;
    way *go;
} ways[WAYS] = {{"R * x + t", apply}, {"quaternion", by_quaternion}, {"camera centre", by_centre}};

// By each way, of all plates and of those whose targets' triangle is not thin.
static struct figures all[WAYS], sound[WAYS];

// What a caller can do before the solve: the first target becomes the zero of the coordinates.
static void subtract_first(struct plate *plate) {
    double first[3];
    memcpy(first, plate->input, sizeof first);
    for (int i = 0; i < 9; i++)
        plate->input[i] -= first[i % 3];
    for (int i = 0; i < 3; i++)
        plate->hole[i] -= first[i];
}

static void try_plate(const struct plate *plate) {
    double poses[48], camera[3];
    uint32_t updates[4], lifted[4], count;
    if (p3p_solve(plate->input, poses, updates, lifted, &count))
        return;
    const double *pose = poses + 12 * nearest(plate, poses, count);
    for (int w = 0; w < WAYS; w++) {
        ways[w].go(pose, plate->hole, camera);
        note(&all[w], error_mm(plate, camera));
        if (!is_thin(plate))
            note(&sound[w], error_mm(plate, camera));
    }
}

static void print_way(const char *plates, int w) {
    printf("| %s | %s |", plates, ways[w].name);
    sort(&sound[w]);
    print_quantile(&sound[w], 0.5);
    print_quantile(&sound[w], 0.99);
    print_quantile(&sound[w], 1);
    sort(&all[w]);
    print_quantile(&all[w], 0.99);
    print_quantile(&all[w], 0.999);
    print_quantile(&all[w], 1);
    printf("\n");
}

static void print_plates(int kind, int subtracted) {
    uint64_t state = SEED;
    char name[100];
    for (int w = 0; w < WAYS; w++) {
        clear(&all[w]);
        clear(&sound[w]);
    }
    for (long n = 0; n < PLATES; n++) {
        struct plate plate;
        make_plate(&state, kind, &plate);
        if (subtracted)
            subtract_first(&plate);
        try_plate(&plate);
    }
    snprintf(name, sizeof name, "%s%s", kind_names[kind],
             subtracted ? ", first target subtracted" : "");
    for (int w = 0; w < WAYS; w++)
        print_way(name, w);
}

int main(void) {
    printf("| plates | way | median, mm | 99%%, mm | most, mm "
           "| thin ones too: 99%%, mm | 99.9%%, mm | most, mm |\n"
           "|---|---|---:|---:|---:|---:|---:|---:|\n");
    for (int kind = 0; kind < KINDS; kind++)
        print_plates(kind, 0);
    for (int kind = 2; kind < KINDS; kind++)
        print_plates(kind, 1);
    printf("\n%d plates of each kind.\n", PLATES);
    return 0;
}
