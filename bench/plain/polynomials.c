/* Polynomials, derivatives, second derivatives and the operators made of them. */
#include "plain.h"

uint8_t plain_evaluate_chebyshev_polynomials(
    size_t order, size_t rows, const double *restrict points, size_t points_length, bool with_derivatives, double *restrict tn,
    size_t tn_length, double *restrict dtn, size_t dtn_length)
{
    if (of_order(order) != 0) {
        return of_order(order);
    }
    if (rows > 4096) {
        return BBFMM_NO_COUNT;
    }
    if (points_length != rows || tn_length != order * rows || dtn_length != (with_derivatives ? order * rows : 0)) {
        return BBFMM_WRONG_LENGTH;
    }
    for (size_t j = 0; j < order; j++) {
        double *t = tn + j * rows;
        for (size_t i = 0; i < rows; i++) {
            t[i] = j == 0 ? 1 : j == 1 ? points[i] : (2 * points[i]) * t[i - rows] - t[i - 2 * rows];
        }
    }
    for (size_t j = 0; with_derivatives && j < order; j++) {
        const double *t = tn + j * rows;
        double *d = dtn + j * rows;
        for (size_t i = 0; i < rows; i++) {
            d[i] = j == 0 ? 0 : j == 1 ? 1 : ((2 * t[i - rows]) + ((2 * points[i]) * d[i - rows])) - d[i - 2 * rows];
        }
    }
    return 0;
}

/* Column j, from the two columns before it. */
static void fill_second(
    size_t rows, const double *restrict x, const double *restrict t2, const double *restrict t1, double *restrict t,
    const double *restrict d2, const double *restrict d1, double *restrict d, const double *restrict dd2,
    const double *restrict dd1, double *restrict dd)
{
    for (size_t i = 0; i < rows; i++) {
        double twice = 2 * x[i];
        t[i] = twice * t1[i] - t2[i];
        d[i] = ((2 * t1[i]) + (twice * d1[i])) - d2[i];
        dd[i] = ((4 * d1[i]) + (twice * dd1[i])) - dd2[i];
    }
}

uint8_t plain_evaluate_second_derivatives(
    size_t order, size_t rows, const double *restrict points, size_t points_length, double *restrict tn, size_t tn_length,
    double *restrict dtn, size_t dtn_length, double *restrict ddtn, size_t ddtn_length)
{
    if (of_order(order) != 0) {
        return of_order(order);
    }
    if (rows > 4096) {
        return BBFMM_NO_COUNT;
    }
    if (points_length != rows || tn_length != order * rows || dtn_length != order * rows || ddtn_length != order * rows) {
        return BBFMM_WRONG_LENGTH;
    }
    for (size_t i = 0; i < rows; i++) {
        tn[i] = 1;
        dtn[i] = 0;
        ddtn[i] = 0;
    }
    for (size_t i = 0; order > 1 && i < rows; i++) {
        tn[rows + i] = points[i];
        dtn[rows + i] = 1;
        ddtn[rows + i] = 0;
    }
    for (size_t j = 2; j < order; j++) {
        double *t = tn + j * rows;
        double *d = dtn + j * rows;
        double *dd = ddtn + j * rows;
        fill_second(rows, points, t - 2 * rows, t - rows, t, d - 2 * rows, d - rows, d, dd - 2 * rows, dd - rows, dd);
    }
    return 0;
}

uint8_t plain_get_m2m_transfer_operators(
    size_t order, const double *restrict nodes, size_t nodes_length, const double *restrict node_polynomials,
    size_t node_polynomials_length, double *restrict operators, size_t operators_length)
{
    if (of_order(order) != 0) {
        return of_order(order);
    }
    if (nodes_length != order || node_polynomials_length != order * order || operators_length != 2 * order * order) {
        return BBFMM_WRONG_LENGTH;
    }
    double share = 2 / (double)order;
    double offset = 1 / (double)order;
    for (size_t column = 0; column < 2 * order; column++) {
        double x = (nodes[column % order] + (column < order ? -1.0 : 1.0)) * 0.5;
        double *out = operators + column * order;
        double before = 1;
        double last = x;
        for (size_t r = 0; r < order; r++) {
            out[r] = 0;
        }
        for (size_t k = 0; k < order; k++) {
            double t = before;
            for (size_t r = 0; r < order; r++) {
                out[r] += node_polynomials[k * order + r] * t;
            }
            double next = (2 * x) * last - before;
            before = last;
            last = next;
        }
        for (size_t r = 0; r < order; r++) {
            out[r] = out[r] * share - offset;
        }
    }
    return 0;
}
