/* What values, gradients and curvatures share: the columns of an axis, and columns that are products of one column an axis. */
#ifndef COLUMNS_H
#define COLUMNS_H

#include "plain.h"

/* What the sums of a node's column become: S, S' or S''. */
typedef enum { FACTOR, SLOPE, BEND } Finish;

static inline void fill_axis(
    size_t order, size_t rows, const double *restrict tn, const double *restrict node_polynomials, Finish finish, double side,
    double *restrict out)
{
    double share = 2 / (double)order;
    double per_side = 2 / side;
    for (size_t node = 0; node < order; node++) {
        double *column = out + node * rows;
        for (size_t i = 0; i < rows; i++) {
            column[i] = 0;
        }
        for (size_t k = 0; k < order; k++) {
            double t = node_polynomials[k * order + node];
            for (size_t i = 0; i < rows; i++) {
                column[i] += tn[k * rows + i] * t;
            }
        }
        for (size_t i = 0; i < rows; i++) {
            double slope = (column[i] * share) * per_side;
            column[i] = finish == FACTOR ? (column[i] * 2 - 1) / (double)order : finish == SLOPE ? slope : slope * per_side;
        }
    }
}

/* The column of one node: the product of one column an axis, the start's first. */
static inline void fill_column(size_t dimension, size_t rows, const double *const *from, double *restrict column)
{
    const double *a = from[0];
    if (dimension == 1) {
        for (size_t i = 0; i < rows; i++) {
            column[i] = a[i];
        }
        return;
    }
    const double *b = from[1];
    if (dimension == 2) {
        for (size_t i = 0; i < rows; i++) {
            column[i] = a[i] * b[i];
        }
        return;
    }
    const double *c = from[2];
    for (size_t i = 0; i < rows; i++) {
        column[i] = (a[i] * b[i]) * c[i];
    }
}

#endif
