/* Makes up a field along a gallery of 100 m, oxygen that is lowest at 60 m, and prints what the calls say of it: a line a node, `node`, its
   place and the field there; then a line a point, `point`, its place, the field, its gradient and its curvature. */
#include "bbfmm.h"

int printf(const char *format, ...);

enum { ORDER = 16, POINTS = 201 };

static const double LENGTH = 100;
static const double CENTRE = 50;

/* Oxygen in per cent at a place in metres. */
static double oxygen(double x)
{
    double u = (x - 60) / 50;
    return 20.93 - 9 / (1 + u * u);
}

/* The sum over the nodes of what each counts for at a point, times the field there. */
static double sum_of(const double *counts, size_t point, const double *field)
{
    double sum = 0;
    for (size_t n = 0; n < ORDER; n++) {
        sum += counts[point + n * POINTS] * field[n];
    }
    return sum;
}

int main(void)
{
    static double nodes[ORDER], polynomials[ORDER * ORDER], none[1], field[ORDER], places[POINTS], points[POINTS];
    static double values[POINTS * ORDER], gradients[POINTS * ORDER], curvatures[POINTS * ORDER], room[3 * POINTS * ORDER];
    static double factors[POINTS * ORDER], slopes[POINTS * ORDER], bends[POINTS * ORDER];
    size_t each = POINTS * ORDER;
    uint8_t refusal = bbfmm_generate_chebyshev_nodes(ORDER, nodes, ORDER);
    refusal |= bbfmm_evaluate_chebyshev_polynomials(ORDER, ORDER, nodes, ORDER, false, polynomials, ORDER * ORDER, none, 0);
    for (size_t n = 0; n < ORDER; n++) {
        double place = CENTRE + LENGTH / 2 * nodes[n];
        field[n] = oxygen(place);
        printf("node %.9g %.9g\n", place, field[n]);
    }
    for (size_t i = 0; i < POINTS; i++) {
        places[i] = points[i] = LENGTH * (double)i / (POINTS - 1);
    }
    refusal |= bbfmm_scale_points(1, POINTS, LENGTH, &CENTRE, 1, points, POINTS);
    refusal |= bbfmm_get_approximation_coefficients(1, ORDER, POINTS, true, LENGTH, polynomials, ORDER * ORDER, points, POINTS, values,
        each, gradients, each, factors, each, slopes, each);
    refusal |= bbfmm_get_curvature_coefficients(1, ORDER, POINTS, LENGTH, polynomials, ORDER * ORDER, points, POINTS, curvatures, each,
        factors, each, slopes, each, bends, each, room, 3 * each);
    for (size_t i = 0; i < POINTS; i++) {
        printf("point %.9g %.9g %.9g %.9g\n", places[i], sum_of(values, i, field), sum_of(gradients, i, field),
            sum_of(curvatures, i, field));
    }
    return refusal != BBFMM_DONE;
}
