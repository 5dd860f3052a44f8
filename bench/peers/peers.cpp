// Other solvers of the three-point pose behind one C interface, to be timed beside the port
// (reference/tools). They come from Debian's libraries (fetch.sh):
//
//   OpenGV Kneip   the body of opengv::absolute_pose::p3p_kneip
//   OpenCV AP3P    the body of cv::solveP3P by SOLVEPNP_AP3P
//   OpenCV P3P     the body of cv::solveP3P by SOLVEPNP_P3P, Gao's solver
//
// Of each the inner function is called, at which points and bearings are doubles already: without
// OpenGV's adapter, and without OpenCV's Mats, pixels and rotation vectors. What is left to convert
// is timed with the solver:
//
//   OpenGV Kneip   18 doubles copied; a pose is the camera's in the world, so its rotation is
//                  transposed and its position turned by that, 9 multiplications
//   OpenCV AP3P    18 doubles copied; a pose's rotation transposed
//   OpenCV P3P     the lengths of the edges and the cosines of the bearings, which belong to the
//                  solver (the library takes the norms of the bearings too, which are 1 here); a
//                  pose's rotation transposed
//
// OpenGV's vectors are kept between calls, so that they allocate nothing: one thread only.
#include <math.h>
#include <opengv/absolute_pose/modules/main.hpp>

// OpenCV's two classes are in its static library but in none of its headers: what is called of
// them, as version 4.6 has it. The functions that solve read none of the data.
namespace cv {
class ap3p {
    double camera[8];

public:
    ap3p(double fx, double fy, double cx, double cy);
    // bearings and points by columns; the fourth column is for a check that is not asked for
    int computePoses(const double bearings[3][4], const double points[3][4],
                     double rotations[4][3][3], double translations[4][3], bool check);
};
} // namespace cv

class p3p {
    double camera[8];

public:
    p3p(double fx, double fy, double cx, double cy);
    int solve_for_lengths(double lengths[4][3], double distances[3], double cosines[3]);
    bool align(double seen[3][3], double x0, double y0, double z0, double x1, double y1, double z1,
               double x2, double y2, double z2, double rotation[3][3], double translation[3]);
};

static cv::ap3p ap3p_solver(1, 1, 0, 0);
static p3p p3p_solver(1, 1, 0, 0);

static void put(double pose[12], const double rotation[3][3], const double translation[3]) {
    for (int i = 0; i < 3; i++) {
        for (int j = 0; j < 3; j++)
            pose[3 * j + i] = rotation[i][j];
        pose[9 + i] = translation[i];
    }
}

static int opengv_kneip(const double input[18], double poses[48]) {
    static opengv::points_t points(3);
    static opengv::bearingVectors_t bearings(3);
    static opengv::transformations_t found;
    for (int i = 0; i < 3; i++) {
        points[i] << input[3 * i], input[3 * i + 1], input[3 * i + 2];
        bearings[i] << input[9 + 3 * i], input[10 + 3 * i], input[11 + 3 * i];
    }
    found.clear();
    opengv::absolute_pose::modules::p3p_kneip_main(bearings, points, found);
    for (size_t k = 0; k < found.size(); k++) {
        double *pose = poses + 12 * k;
        const opengv::transformation_t &camera = found[k];
        for (int i = 0; i < 3; i++) {
            for (int j = 0; j < 3; j++)
                pose[3 * j + i] = camera(j, i);
            pose[9 + i] = -(camera(0, i) * camera(0, 3) + camera(1, i) * camera(1, 3) +
                            camera(2, i) * camera(2, 3));
        }
    }
    return found.size();
}

static int opencv_ap3p(const double input[18], double poses[48]) {
    double bearings[3][4], points[3][4], rotations[4][3][3], translations[4][3];
    for (int i = 0; i < 3; i++)
        for (int k = 0; k < 3; k++) {
            points[k][i] = input[3 * i + k];
            bearings[k][i] = input[9 + 3 * i + k];
        }
    int count = ap3p_solver.computePoses(bearings, points, rotations, translations, false);
    for (int k = 0; k < count; k++)
        put(poses + 12 * k, rotations[k], translations[k]);
    return count;
}

static double distance(const double a[3], const double b[3]) {
    double x = a[0] - b[0], y = a[1] - b[1], z = a[2] - b[2];
    return sqrt(x * x + y * y + z * z);
}

static double cosine(const double a[3], const double b[3]) {
    return a[0] * b[0] + a[1] * b[1] + a[2] * b[2];
}

static int opencv_p3p(const double input[18], double poses[48]) {
    const double *x = input, *b = input + 9;
    double distances[3] = {distance(x + 3, x + 6), distance(x, x + 6), distance(x, x + 3)};
    double cosines[3] = {cosine(b + 3, b + 6), cosine(b, b + 6), cosine(b, b + 3)};
    double lengths[4][3], seen[3][3], rotation[3][3], translation[3];
    int found = p3p_solver.solve_for_lengths(lengths, distances, cosines), count = 0;
    for (int k = 0; k < found; k++) {
        for (int i = 0; i < 9; i++)
            seen[i / 3][i % 3] = lengths[k][i / 3] * b[i];
        if (p3p_solver.align(seen, x[0], x[1], x[2], x[3], x[4], x[5], x[6], x[7], x[8], rotation,
                             translation))
            put(poses + 12 * count++, rotation, translation);
    }
    return count;
}

static const struct {
    const char *name;
    int (*solve)(const double input[18], double poses[48]);
} peers[] = {
    {"OpenGV Kneip", opengv_kneip},
    {"OpenCV AP3P", opencv_ap3p},
    {"OpenCV P3P", opencv_p3p},
};

extern "C" {
int peer_count(void) { return sizeof peers / sizeof *peers; }

const char *peer_name(int peer) { return peers[peer].name; }

// Takes and gives what p3p_solve does (include/p3p.h), without the updates, and returns how many
// poses there are; slots from there on are left as they were.
int peer_solve(int peer, const double input[18], double poses[48]) {
    return peers[peer].solve(input, poses);
}
}
