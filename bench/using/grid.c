// How far the hole is off against the distance of the job from zero, by four ways: the plain solve
// with R * x + t as pushed and after truing by a unit quaternion, and the solve about the first
// target with R * (x - origin) + t, as pushed and trued. Bearings are normalised in double, or
// longer and shorter by chance. The plates are not thin, and the same at every distance; each has
// its own direction from zero. Prints docs/grid.tsv, from which docs/grid.py draws.
#include "jobs.h"

// The last is that of an easting with its zone's number before it.
static const double distances[] = {1e5,   1.5e5, 2.2e5, 3.3e5, 4.7e5, 6.8e5, 1e6,
                                   1.5e6, 2.2e6, 3.3e6, 4.7e6, 6e6,   3.3e7};
static const double parts[] = {0, 2e-12};

static struct figures figures[WAYS];

static void put_at(struct scene *scene, double distance, uint64_t *state) {
    double angle = range(state, 0, 2 * PI);
    scene->place[0] = rint(distance * cos(angle));
    scene->place[1] = rint(distance * sin(angle));
    scene->place[2] = whole(state, 0, 4000);
}

static void try_plates(double distance, double part) {
    uint64_t state = SEED, places = SEED + 1;
    for (int w = 0; w < WAYS; w++)
        clear(&figures[w]);
    for (long n = 0; n < PLATES; n++) {
        struct scene scene;
        struct plate plate;
        double errors[WAYS];
        random_scene(&state, part, &scene);
        put_at(&scene, distance, &places);
        see(&scene, &plate);
        if (is_thin(&plate))
            continue;
        four_ways(&plate, errors);
        for (int w = 0; w < WAYS; w++) {
            figures[w].plates++;
            if (errors[w] < INFINITY)
                note(&figures[w], errors[w]);
        }
    }
}

static void print_rows(double distance, double part) {
    const double quantiles[] = {0.5, 0.99, 0.999, 1};
    try_plates(distance, part);
    for (int w = 0; w < WAYS; w++) {
        struct figures *of = &figures[w];
        sort(of);
        printf("%.0f\t%g\t%s\t%ld\t%ld", distance, part, way_names[w], of->plates, of->count);
        for (int i = 0; i < 4; i++)
            printf("\t%.1e", of->values[(long)(quantiles[i] * (double)(of->count - 1))]);
        printf("\n");
    }
}

int main(void) {
    printf("distance, m\tlengths off by up to\tway\tplates\tanswered"
           "\tmedian, mm\t99%%, mm\t99.9%%, mm\tmost, mm\n");
    for (size_t p = 0; p < sizeof parts / sizeof *parts; p++)
        for (size_t d = 0; d < sizeof distances / sizeof *distances; d++)
            print_rows(distances[d], parts[p]);
    return 0;
}
