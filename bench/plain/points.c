/* Target and source points: a column an axis, in runs and cycles. */
#include "plain.h"

static void fill_column(size_t cycles, size_t order, size_t run, const double *restrict values, double *restrict column)
{
    for (size_t cycle = 0; cycle < cycles; cycle++) {
        for (size_t i = 0; i < order; i++) {
            for (size_t k = 0; k < run; k++) {
                *column++ = values[i];
            }
        }
    }
}

static void fill_points(
    size_t dimension, size_t order, double side, const int32_t *reference, const double *restrict nodes, double *restrict points)
{
    size_t rows = power(order, dimension);
    size_t cycles = 1;
    for (size_t axis = 0; axis < dimension; axis++) {
        double values[16];
        for (size_t i = 0; i < order; i++) {
            values[i] = reference ? (reference[axis] + nodes[i] * 0.5) * side : nodes[i] * (0.5 * side);
        }
        fill_column(cycles, order, rows / cycles / order, values, points + axis * rows);
        cycles *= order;
    }
}

static uint8_t of_lengths(size_t dimension, size_t order, double side, size_t nodes, size_t points)
{
    if (nodes != order || points != dimension * power(order, dimension)) {
        return BBFMM_WRONG_LENGTH;
    }
    return is_side(side) ? 0 : BBFMM_NO_CELL;
}

uint8_t plain_generate_chebyshev_target_points(
    size_t dimension, size_t order, double side, const double *restrict nodes, size_t nodes_length, double *restrict points,
    size_t points_length)
{
    if (of_shape(dimension, order) != 0) {
        return of_shape(dimension, order);
    }
    uint8_t refused = of_lengths(dimension, order, side, nodes_length, points_length);
    if (refused != 0) {
        return refused;
    }
    fill_points(dimension, order, side, 0, nodes, points);
    return 0;
}

uint8_t plain_generate_chebyshev_source_points(
    size_t dimension, size_t order, double side, size_t reference, const double *restrict nodes, size_t nodes_length,
    double *restrict points, size_t points_length)
{
    int32_t vector[3];
    if (of_shape(dimension, order) != 0) {
        return of_shape(dimension, order);
    }
    uint8_t refused = plain_reference_vector(dimension, reference, vector, 3);
    if (refused == 0) {
        refused = of_lengths(dimension, order, side, nodes_length, points_length);
    }
    if (refused != 0) {
        return refused;
    }
    fill_points(dimension, order, side, vector, nodes, points);
    return 0;
}
