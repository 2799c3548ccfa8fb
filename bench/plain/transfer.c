/* The tensor transfer: each pass keeps the sums of a column and adds operator columns to them. */
#include "plain.h"

static void pass(
    size_t order, size_t width, bool transpose, const double *restrict operator, const double *restrict from, double *restrict to)
{
    for (size_t c = 0; c < width; c++) {
        double sums[16] = {0};
        for (size_t s = 0; s < order; s++) {
            double x = from[s + order * c];
            for (size_t r = 0; r < order; r++) {
                sums[r] += x * (transpose ? operator[s + order * r] : operator[r + order * s]);
            }
        }
        for (size_t r = 0; r < order; r++) {
            to[c + width * r] = sums[r];
        }
    }
}

uint8_t plain_apply_cheb_tensor_transfer(
    size_t dimension, size_t order, size_t child, bool transpose, const double *restrict input, size_t input_length,
    const double *restrict operators, size_t operators_length, double *restrict first, size_t first_length,
    double *restrict second, size_t second_length)
{
    if (of_shape(dimension, order) != 0) {
        return of_shape(dimension, order);
    }
    if (child >= (size_t)1 << dimension) {
        return BBFMM_NO_CASE;
    }
    size_t width = power(order, dimension - 1);
    size_t nodes = width * order;
    if (input_length != nodes || operators_length != 2 * order * order || first_length != nodes || second_length != nodes) {
        return BBFMM_WRONG_LENGTH;
    }
    for (size_t i = 0; i < nodes; i++) {
        first[i] = input[i];
    }
    double *from = first;
    double *to = second;
    for (size_t axis = dimension; axis-- > 0;) {
        pass(order, width, transpose, operators + (child >> axis & 1) * order * order, from, to);
        double *swap = from;
        from = to;
        to = swap;
    }
    return 0;
}
