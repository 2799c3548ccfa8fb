/* Ratio maps: the points scaled, the coefficients there, and then for each point one pass over its values with a sum a gas. */
#include "plain.h"

/* The answer at a point, whose ratio is written if it has one. */
static uint8_t answer_at(double carbon_monoxide, double nitrogen, double oxygen, double floor, double *restrict ratio)
{
    double deficiency = 0.265 * nitrogen - oxygen;
    if (!is_finite(deficiency)) {
        return BBFMM_AIR_UNUSABLE;
    }
    if (deficiency < floor) {
        return BBFMM_AIR_FRESH;
    }
    double found = 100 * carbon_monoxide / deficiency;
    if (!is_finite(found)) {
        return BBFMM_AIR_UNUSABLE;
    }
    *ratio = found;
    return BBFMM_AIR_RATIO;
}

/* The gases at each point, and what they say. */
static void fill_answers(
    size_t nodes, size_t rows, double floor, const double *restrict values, const double *restrict carbon_monoxide,
    const double *restrict nitrogen, const double *restrict oxygen, uint8_t *restrict answers, double *restrict ratios)
{
    for (size_t i = 0; i < rows; i++) {
        double co = 0, n2 = 0, o2 = 0;
        for (size_t n = 0; n < nodes; n++) {
            double value = values[n * rows + i];
            co += value * carbon_monoxide[n];
            n2 += value * nitrogen[n];
            o2 += value * oxygen[n];
        }
        answers[i] = answer_at(co, n2, o2, floor, ratios + i);
    }
}

uint8_t plain_graham_ratios(
    size_t dimension, size_t order, double side, size_t rows, double floor, const double *restrict centre, size_t centre_length,
    const double *restrict node_polynomials, size_t node_polynomials_length, double *restrict points, size_t points_length,
    const double *restrict carbon_monoxide, size_t carbon_monoxide_length, const double *restrict nitrogen, size_t nitrogen_length,
    const double *restrict oxygen, size_t oxygen_length, double *restrict values, size_t values_length, double *restrict factors,
    size_t factors_length, uint8_t *restrict answers, size_t answers_length, double *restrict ratios, size_t ratios_length)
{
    if (of_shape(dimension, order) != 0) {
        return of_shape(dimension, order);
    }
    if (rows > 4096) {
        return BBFMM_NO_COUNT;
    }
    size_t nodes = power(order, dimension);
    if (centre_length != dimension || node_polynomials_length != order * order || points_length != dimension * rows ||
        carbon_monoxide_length != nodes || nitrogen_length != nodes || oxygen_length != nodes || values_length != nodes * rows ||
        factors_length != dimension * order * rows || answers_length != rows || ratios_length != rows) {
        return BBFMM_WRONG_LENGTH;
    }
    if (!(floor > 0 && is_finite(floor))) {
        /* Told last, and before a point is scaled. */
        uint8_t before = of_points(dimension, side, rows, centre, points);
        return before != 0 ? before : BBFMM_NO_FLOOR;
    }
    uint8_t refused = plain_scale_points(dimension, rows, side, centre, centre_length, points, points_length);
    if (refused != 0) {
        return refused;
    }
    /* Everything was tested: this is not refused. */
    plain_get_approximation_coefficients(
        dimension, order, rows, false, side, node_polynomials, node_polynomials_length, points, points_length, values, values_length,
        0, 0, factors, factors_length, 0, 0);
    fill_answers(nodes, rows, floor, values, carbon_monoxide, nitrogen, oxygen, answers, ratios);
    return 0;
}
