/* The rule, a function an idea. A matrix has as many rows as there are points; its entry of a point and a column is at
   point + column * rows. */
#include "rule.h"

enum { AXES = 3, ORDERS = 16, POINTS = 4096 };

bool is_finite(double x)
{
    return x - x == 0;
}

static size_t power(size_t base, size_t exponent)
{
    return exponent == 0 ? 1 : base * power(base, exponent - 1);
}

size_t nodes_of(const Question *q)
{
    return power(q->order, q->dimension);
}

/* FAULTS */

static bool are_finite(const double *list, size_t count)
{
    for (size_t i = 0; i < count; i++) {
        if (!is_finite(list[i])) {
            return false;
        }
    }
    return true;
}

static double reference_coordinate(const Question *q, double x, size_t axis)
{
    return (x - q->centre[axis]) / (q->length * 0.5);
}

static bool are_in_cell(const Question *q, const double *points)
{
    for (size_t i = 0; i < q->dimension * q->rows; i++) {
        double x = reference_coordinate(q, points[i], i / q->rows);
        if ((x < 0 ? -x : x) > 1 + 0x1p-20) {
            return false;
        }
    }
    return true;
}

uint8_t find_fault(const Question *q, const double *points, bool are_lengths_right)
{
    if (q->dimension < 1 || q->dimension > AXES) {
        return BBFMM_NO_DIMENSION;
    }
    if (q->order < 1 || q->order > ORDERS) {
        return BBFMM_NO_ORDER;
    }
    if (q->rows > POINTS) {
        return BBFMM_NO_COUNT;
    }
    if (!are_lengths_right) {
        return BBFMM_WRONG_LENGTH;
    }
    if (!(q->length >= 0x1p-20 && q->length <= 0x1p30)) {
        return BBFMM_NO_CELL;
    }
    if (!are_finite(points, q->dimension * q->rows) || !are_finite(q->centre, q->dimension)) {
        return BBFMM_NOT_FINITE;
    }
    if (!are_in_cell(q, points)) {
        return BBFMM_OUT_OF_CELL;
    }
    return is_finite(q->floor) && q->floor > 0 ? BBFMM_DONE : BBFMM_NO_FLOOR;
}

/* COEFFICIENTS */

/* T_0 to T_(p-1). */
static void find_polynomials(double x, size_t order, double *t)
{
    for (size_t j = 0; j < order; j++) {
        t[j] = j == 0 ? 1 : j == 1 ? x : (2 * x) * t[j - 1] - t[j - 2];
    }
}

/* S of a node on an axis, where the polynomials at the point's coordinate are t. */
static double share_of(const Question *q, const double *t, size_t node)
{
    double sum = 0;
    for (size_t k = 0; k < q->order; k++) {
        double term = t[k] * q->polynomials[node + k * q->order];
        sum = sum + term;
    }
    return (sum * 2 - 1) / (double)q->order;
}

static void fill_factors(const Question *q, Coefficients *c, size_t point, size_t axis)
{
    double t[ORDERS];
    find_polynomials(c->points[point + axis * q->rows], q->order, t);
    for (size_t node = 0; node < q->order; node++) {
        c->factors[point + (axis * q->order + node) * q->rows] = share_of(q, t, node);
    }
}

/* The last axis varies fastest. */
static double value_of(const Question *q, const Coefficients *c, size_t point, size_t node)
{
    double value = 1;
    size_t stride = nodes_of(q);
    for (size_t axis = 0; axis < q->dimension; axis++) {
        stride /= q->order;
        size_t index = node / stride % q->order;
        value = value * c->factors[point + (axis * q->order + index) * q->rows];
    }
    return value;
}

void fill_coefficients(const Question *q, Coefficients *c)
{
    for (size_t i = 0; i < q->dimension * q->rows; i++) {
        c->points[i] = reference_coordinate(q, c->points[i], i / q->rows);
    }
    for (size_t axis = 0; axis < q->dimension; axis++) {
        for (size_t point = 0; point < q->rows; point++) {
            fill_factors(q, c, point, axis);
        }
    }
    for (size_t node = 0; node < nodes_of(q); node++) {
        for (size_t point = 0; point < q->rows; point++) {
            c->values[point + node * q->rows] = value_of(q, c, point, node);
        }
    }
}

/* RATIOS */

static double gas_at(const Question *q, const Coefficients *c, size_t point, const double *expansion)
{
    double sum = 0;
    for (size_t node = 0; node < nodes_of(q); node++) {
        double term = c->values[point + node * q->rows] * expansion[node];
        sum = sum + term;
    }
    return sum;
}

Found find_ratio(const Question *q, const Coefficients *c, size_t point)
{
    double scaled = 0.265 * gas_at(q, c, point, q->nitrogen);
    Found found = {scaled - gas_at(q, c, point, q->oxygen), 0, BBFMM_AIR_RATIO};
    if (!is_finite(found.deficiency)) {
        found.answer = BBFMM_AIR_UNUSABLE;
        return found;
    }
    if (found.deficiency < q->floor) {
        found.answer = BBFMM_AIR_FRESH;
        return found;
    }
    double hundredfold = 100 * gas_at(q, c, point, q->carbon_monoxide);
    found.ratio = hundredfold / found.deficiency;
    found.answer = is_finite(found.ratio) ? BBFMM_AIR_RATIO : BBFMM_AIR_UNUSABLE;
    return found;
}
