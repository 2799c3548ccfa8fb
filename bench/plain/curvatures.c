/* Curvature at reference coordinates: S, S' and S'' of each axis, and columns that are their products, for every pair of axes. */
#include "columns.h"

/* A product of one column an axis: in this order of the axes, each read from its own list. */
typedef struct {
    size_t axes[3];
    const double *sources[3];
} Product;

/* T, T' and T'' of an axis in the room, and S, S' and S'' from them. */
static void fill_axes(
    size_t dimension, size_t order, size_t rows, double side, const double *restrict node_polynomials,
    const double *restrict coordinates, double *restrict factors, double *restrict slopes, double *restrict bends,
    double *restrict room)
{
    size_t each = order * rows;
    for (size_t axis = 0; axis < dimension; axis++) {
        plain_evaluate_second_derivatives(
            order, rows, coordinates + axis * rows, rows, room, each, room + each, each, room + 2 * each, each);
        fill_axis(order, rows, room, node_polynomials, FACTOR, side, factors + axis * each);
        fill_axis(order, rows, room + each, node_polynomials, SLOPE, side, slopes + axis * each);
        fill_axis(order, rows, room + 2 * each, node_polynomials, BEND, side, bends + axis * each);
    }
}

/* The product of a pair: both its axes first, or S'' of the one, and S of the others. */
static Product product_of(
    size_t dimension, size_t g, size_t h, const double *factors, const double *slopes, const double *bends)
{
    Product product = {{g, h, 0}, {g == h ? bends : slopes, slopes, 0}};
    size_t used = g == h ? 1 : 2;
    for (size_t axis = 0; axis < dimension; axis++) {
        if (axis != g && axis != h) {
            product.axes[used] = axis;
            product.sources[used++] = factors;
        }
    }
    return product;
}

/* The columns of all nodes. */
static void fill_columns(size_t dimension, size_t order, size_t rows, const Product *product, double *restrict out)
{
    size_t index[3] = {0, 0, 0};
    for (;;) {
        const double *from[3];
        for (size_t k = 0; k < dimension; k++) {
            size_t axis = product->axes[k];
            from[k] = product->sources[k] + (axis * order + index[axis]) * rows;
        }
        fill_column(dimension, rows, from, out);
        out += rows;
        size_t axis = dimension;
        while (axis > 0 && ++index[axis - 1] == order) {
            index[--axis] = 0;
        }
        if (axis == 0) {
            return;
        }
    }
}

uint8_t plain_get_curvature_coefficients(
    size_t dimension, size_t order, size_t rows, double side, const double *restrict node_polynomials,
    size_t node_polynomials_length, const double *restrict coordinates, size_t coordinates_length, double *restrict curvatures,
    size_t curvatures_length, double *restrict factors, size_t factors_length, double *restrict slopes, size_t slopes_length,
    double *restrict bends, size_t bends_length, double *restrict room, size_t room_length)
{
    if (of_shape(dimension, order) != 0) {
        return of_shape(dimension, order);
    }
    if (rows > 4096) {
        return BBFMM_NO_COUNT;
    }
    size_t each = power(order, dimension) * rows;
    size_t axes = dimension * order * rows;
    if (node_polynomials_length != order * order || coordinates_length != dimension * rows ||
        curvatures_length != dimension * (dimension + 1) / 2 * each || factors_length != axes || slopes_length != axes ||
        bends_length != axes || room_length != 3 * order * rows) {
        return BBFMM_WRONG_LENGTH;
    }
    if (!is_side(side)) {
        return BBFMM_NO_CELL;
    }
    if (!are_finite(coordinates, dimension * rows)) {
        return BBFMM_NOT_FINITE;
    }
    fill_axes(dimension, order, rows, side, node_polynomials, coordinates, factors, slopes, bends, room);
    for (size_t g = 0; g < dimension; g++) {
        for (size_t h = g; h < dimension; h++) {
            Product product = product_of(dimension, g, h, factors, slopes, bends);
            fill_columns(dimension, order, rows, &product, curvatures);
            curvatures += each;
        }
    }
    return 0;
}
