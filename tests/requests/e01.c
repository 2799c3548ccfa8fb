/* E1: points that are out of the cell are refused. The cases are those of one call, which E7 made two: the points are scaled, and then
   the coefficients taken there. A case lists the lower number of the two. */
#include "cases.h"

void *memcpy(void *to, const void *from, size_t bytes);
int memcmp(const void *left, const void *right, size_t bytes);

static double centre[8], polynomials[300], points[MOST], before[MOST];
static double values[MOST], gradients[MOST], factors[MOST], slopes[MOST];

/* The second call takes the points as the first left them: scaled, or as they came. */
static uint8_t answer_second(size_t polynomial_count, size_t point_count)
{
    size_t dimension = number("d");
    size_t order = number("p");
    size_t rows = number("rows");
    bool with_gradients = number("gradients") == 1;
    /* A case that is refused for its shape or its count does not ask how long the working buffers are. */
    size_t shares = dimension <= 3 && order <= 16 && rows <= 64 ? dimension * order * rows : 0;
    return bbfmm_get_approximation_coefficients(
        dimension, order, rows, with_gradients, real("length"), polynomials, polynomial_count, points, point_count, values,
        number_at("lengths", 0), gradients, number_at("lengths", 1), factors, shares, slopes, with_gradients ? shares : 0);
}

void answer_e01_cell(void)
{
    size_t centre_count = reals("centre", centre, 8);
    size_t polynomial_count = reals("polynomials", polynomials, 300);
    size_t point_count = reals("points", points, MOST);
    memcpy(before, points, sizeof before);
    uint8_t scaling = bbfmm_scale_points(number("d"), number("rows"), real("length"), centre, centre_count, points, point_count);
    hold(scaling == 0 || memcmp(points, before, sizeof before) == 0, "points");
    memcpy(before, points, sizeof before);
    uint8_t second = answer_second(polynomial_count, point_count);
    hold(memcmp(points, before, sizeof before) == 0, "coordinates");
    uint8_t found = scaling == 0 || (second != 0 && second < scaling) ? second : scaling;
    hold_number("refusal", found);
    if (found != 0) {
        return;
    }
    hold_reals("scaled", points, point_count);
    hold_reals("values", values, number_at("lengths", 0));
    hold_reals("grads", gradients, number_at("lengths", 1));
}
