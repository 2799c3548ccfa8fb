/* The rule, point by point: a function an idea. A matrix has as many rows as there are points; its entry of a point and a column is at
   point + column * rows. */
#include "rule.h"

size_t nodes_of(size_t dimension, size_t order)
{
    return dimension == 0 ? 1 : order * nodes_of(dimension - 1, order);
}

size_t pairs_of(size_t dimension)
{
    return dimension * (dimension + 1) / 2;
}

/* FAULTS */

static bool is_finite(double x)
{
    return x - x == 0;
}

uint8_t find_fault_of_second(size_t order, size_t rows, bool are_lengths_right)
{
    if (order == 0 || order > ORDERS) {
        return BBFMM_NO_ORDER;
    }
    if (rows > POINTS) {
        return BBFMM_NO_COUNT;
    }
    return are_lengths_right ? BBFMM_DONE : BBFMM_WRONG_LENGTH;
}

uint8_t find_fault(const Question *q, bool are_lengths_right)
{
    if (q->dimension == 0 || q->dimension > AXES) {
        return BBFMM_NO_DIMENSION;
    }
    uint8_t number = find_fault_of_second(q->order, q->rows, are_lengths_right);
    if (number != BBFMM_DONE) {
        return number;
    }
    if (!(q->length >= 0x1p-20) || !(q->length <= 0x1p30)) {
        return BBFMM_NO_CELL;
    }
    for (size_t i = 0; i < q->dimension * q->rows; i++) {
        if (!is_finite(q->coordinates[i])) {
            return BBFMM_NOT_FINITE;
        }
    }
    return BBFMM_DONE;
}

/* POLYNOMIALS. Every operation has a line, so that each rounds for itself. */

/* (twice x times the last) less the one before. */
static double next_t(double x, double last, double before)
{
    double doubled = 2 * x;
    double product = doubled * last;
    return product - before;
}

/* ((a whole number times the derivative of one order less) + (twice x times the last)) less the one before. */
static double next_derivative(double whole, double lower, double x, double last, double before)
{
    double doubled = 2 * x;
    double left = whole * lower;
    double right = doubled * last;
    double sum = left + right;
    return sum - before;
}

Polynomials polynomials_at(double x, size_t order)
{
    Polynomials all = {{1, x}, {0, 1}, {0, 0}};
    for (size_t j = 2; j < order; j++) {
        all.t[j] = next_t(x, all.t[j - 1], all.t[j - 2]);
        all.first[j] = next_derivative(2, all.t[j - 1], x, all.first[j - 1], all.first[j - 2]);
        all.second[j] = next_derivative(4, all.first[j - 1], x, all.second[j - 1], all.second[j - 2]);
    }
    return all;
}

/* AN AXIS */

/* The sum over the polynomials: at the point, times T at the node. */
static double sum_of(const Question *q, const double *at_point, size_t node)
{
    double sum = 0;
    for (size_t k = 0; k < q->order; k++) {
        double term = at_point[k] * q->polynomials[node + k * q->order];
        sum = sum + term;
    }
    return sum;
}

static double factor_of(const Question *q, double sum)
{
    double doubled = sum * 2;
    double less = doubled - 1;
    return less / (double)q->order;
}

static double slope_of(const Question *q, double sum)
{
    double share = 2 / (double)q->order;
    double per_length = 2 / q->length;
    double shared = sum * share;
    return shared * per_length;
}

static double bend_of(const Question *q, double sum)
{
    return slope_of(q, sum) * (2 / q->length);
}

/* S, S' and S'' of an axis at a point; and T, T' and T'' in the room, where those of the last axis stay. */
static void fill_axis(const Question *q, const Left *left, size_t point, size_t axis)
{
    Polynomials all = polynomials_at(q->coordinates[point + axis * q->rows], q->order);
    for (size_t n = 0; n < q->order; n++) {
        size_t place = point + (axis * q->order + n) * q->rows;
        left->factors[place] = factor_of(q, sum_of(q, all.t, n));
        left->slopes[place] = slope_of(q, sum_of(q, all.first, n));
        left->bends[place] = bend_of(q, sum_of(q, all.second, n));
        left->room[point + n * q->rows] = all.t[n];
        left->room[point + (q->order + n) * q->rows] = all.first[n];
        left->room[point + (2 * q->order + n) * q->rows] = all.second[n];
    }
}

/* COLUMNS */

/* An entry of S, S' or S'' at a point, for the index that a node has on an axis. The last axis varies fastest. */
static double share_at(const Question *q, const double *shares, size_t point, size_t axis, size_t node)
{
    size_t step = nodes_of(q->dimension - 1 - axis, q->order);
    size_t index = node / step % q->order;
    return shares[point + (axis * q->order + index) * q->rows];
}

static double curvature_at(const Question *q, const Left *left, size_t point, size_t g, size_t h, size_t node)
{
    double product;
    if (g == h) {
        product = share_at(q, left->bends, point, g, node);
    } else {
        product = share_at(q, left->slopes, point, g, node);
        product = product * share_at(q, left->slopes, point, h, node);
    }
    for (size_t axis = 0; axis < q->dimension; axis++) {
        if (axis != g && axis != h) {
            product = product * share_at(q, left->factors, point, axis, node);
        }
    }
    return product;
}

void fill_left(const Question *q, const Left *left)
{
    for (size_t axis = 0; axis < q->dimension; axis++) {
        for (size_t point = 0; point < q->rows; point++) {
            fill_axis(q, left, point, axis);
        }
    }
    size_t column = 0;
    for (size_t g = 0; g < q->dimension; g++) {
        for (size_t h = g; h < q->dimension; h++) {
            for (size_t node = 0; node < nodes_of(q->dimension, q->order); node++) {
                for (size_t point = 0; point < q->rows; point++) {
                    left->curvatures[point + column * q->rows] = curvature_at(q, left, point, g, h, node);
                }
                column++;
            }
        }
    }
}
