/* Points scaled; and coefficients at reference coordinates: S and S' of each axis, and columns that are their products. */
#include "columns.h"

/* S and S' of every axis. Values and gradients hold the polynomials and their derivatives meanwhile. */
static void fill_axes(
    size_t dimension, size_t order, size_t rows, bool with_gradients, double side, const double *restrict node_polynomials,
    const double *restrict coordinates, double *restrict values, double *restrict gradients, double *restrict factors,
    double *restrict slopes)
{
    size_t each = order * rows;
    for (size_t axis = 0; axis < dimension; axis++) {
        plain_evaluate_chebyshev_polynomials(
            order, rows, coordinates + axis * rows, rows, with_gradients, values, each, gradients, with_gradients ? each : 0);
        fill_axis(order, rows, values, node_polynomials, FACTOR, side, factors + axis * each);
        if (with_gradients) {
            fill_axis(order, rows, gradients, node_polynomials, SLOPE, side, slopes + axis * each);
        }
    }
}

/* The columns of all nodes, whose products start with axis `start`, read from `starts`. */
static void fill_columns(
    size_t dimension, size_t order, size_t rows, size_t start, const double *starts, const double *factors, double *restrict out)
{
    size_t index[3] = {0, 0, 0};
    for (;;) {
        const double *from[3];
        size_t used = 1;
        for (size_t axis = 0; axis < dimension; axis++) {
            size_t at = (axis * order + index[axis]) * rows;
            if (axis == start) {
                from[0] = starts + at;
            } else {
                from[used++] = factors + at;
            }
        }
        fill_column(dimension, rows, from, out);
        out += rows;
        size_t axis = dimension;
        while (axis > 0 && ++index[axis - 1] == order) {
            index[--axis] = 0;
        }
        if (axis == 0) {
            return;
        }
    }
}

uint8_t plain_scale_points(
    size_t dimension, size_t rows, double side, const double *restrict centre, size_t centre_length, double *restrict points,
    size_t points_length)
{
    if (dimension < 1 || dimension > 3) {
        return BBFMM_NO_DIMENSION;
    }
    if (rows > 4096) {
        return BBFMM_NO_COUNT;
    }
    if (centre_length != dimension || points_length != dimension * rows) {
        return BBFMM_WRONG_LENGTH;
    }
    uint8_t refused = of_points(dimension, side, rows, centre, points);
    if (refused != 0) {
        return refused;
    }
    for (size_t axis = 0; axis < dimension; axis++) {
        double *x = points + axis * rows;
        for (size_t i = 0; i < rows; i++) {
            x[i] = (x[i] - centre[axis]) / (side * 0.5);
        }
    }
    return 0;
}

uint8_t plain_get_approximation_coefficients(
    size_t dimension, size_t order, size_t rows, bool with_gradients, double side, const double *restrict node_polynomials,
    size_t node_polynomials_length, const double *restrict coordinates, size_t coordinates_length, double *restrict values,
    size_t values_length, double *restrict gradients, size_t gradients_length, double *restrict factors, size_t factors_length,
    double *restrict slopes, size_t slopes_length)
{
    if (of_shape(dimension, order) != 0) {
        return of_shape(dimension, order);
    }
    if (rows > 4096) {
        return BBFMM_NO_COUNT;
    }
    size_t nodes = power(order, dimension);
    size_t axes = dimension * order * rows;
    if (node_polynomials_length != order * order || coordinates_length != dimension * rows || values_length != nodes * rows ||
        gradients_length != (with_gradients ? dimension * nodes * rows : 0) || factors_length != axes ||
        slopes_length != (with_gradients ? axes : 0)) {
        return BBFMM_WRONG_LENGTH;
    }
    if (with_gradients && !is_side(side)) {
        return BBFMM_NO_CELL;
    }
    if (!are_finite(coordinates, dimension * rows)) {
        return BBFMM_NOT_FINITE;
    }
    fill_axes(dimension, order, rows, with_gradients, side, node_polynomials, coordinates, values, gradients, factors, slopes);
    fill_columns(dimension, order, rows, 0, factors, factors, values);
    for (size_t axis = 0; with_gradients && axis < dimension; axis++) {
        fill_columns(dimension, order, rows, axis, slopes, factors, gradients + axis * nodes * rows);
    }
    return 0;
}
