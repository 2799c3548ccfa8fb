/* The square root, and the distances between the nodes of two blocks, by the processor's own root. */
#include "plain.h"

double plain_square_root(double x)
{
    return __builtin_sqrt(x);
}

/* The distances of all sources to one target, whose coordinates stand a column apart as the sources' do. One loop for each number of
   axes, so that no entry asks how many there are. */
static void fill_column(
    size_t dimension, size_t rows, const double *restrict sources, const double *restrict target, double *restrict column)
{
    const double *x = sources;
    double to_x = target[0];
    if (dimension == 1) {
        for (size_t i = 0; i < rows; i++) {
            double dx = x[i] - to_x;
            column[i] = __builtin_sqrt(dx * dx);
        }
        return;
    }
    const double *y = x + rows;
    double to_y = target[rows];
    if (dimension == 2) {
        for (size_t i = 0; i < rows; i++) {
            double dx = x[i] - to_x;
            double dy = y[i] - to_y;
            column[i] = __builtin_sqrt(dx * dx + dy * dy);
        }
        return;
    }
    const double *z = y + rows;
    double to_z = target[2 * rows];
    for (size_t i = 0; i < rows; i++) {
        double dx = x[i] - to_x;
        double dy = y[i] - to_y;
        double dz = z[i] - to_z;
        column[i] = __builtin_sqrt((dx * dx + dy * dy) + dz * dz);
    }
}

uint8_t plain_sample_distances(
    size_t dimension, size_t order, double side, size_t reference, const double *restrict nodes, size_t nodes_length,
    double *restrict sources, size_t sources_length, double *restrict targets, size_t targets_length, double *restrict block,
    size_t block_length)
{
    int32_t vector[3];
    if (of_shape(dimension, order) != 0) {
        return of_shape(dimension, order);
    }
    size_t rows = power(order, dimension);
    if (rows > 1024) {
        return BBFMM_NO_COUNT;
    }
    uint8_t refused = plain_reference_vector(dimension, reference, vector, 3);
    if (refused != 0) {
        return refused;
    }
    if (nodes_length != order || sources_length != rows * dimension || targets_length != rows * dimension ||
        block_length != rows * rows) {
        return BBFMM_WRONG_LENGTH;
    }
    if (!is_side(side)) {
        return BBFMM_NO_CELL;
    }
    plain_generate_chebyshev_source_points(dimension, order, side, reference, nodes, order, sources, sources_length);
    plain_generate_chebyshev_target_points(dimension, order, side, nodes, order, targets, targets_length);
    for (size_t j = 0; j < rows; j++) {
        fill_column(dimension, rows, sources, targets + j, block + j * rows);
    }
    return 0;
}
