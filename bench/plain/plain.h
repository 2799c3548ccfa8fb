/* Document 01's rules and limits in plain C, over the buffers that our calls are lent: what an engineer would write instead. Each
   takes what the call of bbfmm.h with its name takes, and answers the same number. */
#ifndef PLAIN_H
#define PLAIN_H

#include "bbfmm.h"

uint8_t plain_look_up(size_t dimension, int32_t x, int32_t y, int32_t z, size_t *restrict answer, size_t answer_length);
uint8_t plain_follow_node(
    size_t dimension, size_t order, int32_t x, int32_t y, int32_t z, size_t node, size_t *restrict answer, size_t answer_length);
uint8_t plain_reference_vector(size_t dimension, size_t number, int32_t *restrict vector, size_t vector_length);
uint8_t plain_combined_permutation(size_t dimension, size_t order, size_t number, uint16_t *restrict table, size_t table_length);
uint8_t plain_inverse_permutation(size_t dimension, size_t order, size_t number, uint16_t *restrict table, size_t table_length);
uint8_t plain_generate_chebyshev_nodes(size_t order, double *restrict nodes, size_t nodes_length);
uint8_t plain_generate_node_set(size_t order, size_t set, double *restrict nodes, size_t nodes_length);
uint8_t plain_evaluate_chebyshev_polynomials(
    size_t order, size_t rows, const double *restrict points, size_t points_length, bool with_derivatives, double *restrict tn,
    size_t tn_length, double *restrict dtn, size_t dtn_length);
uint8_t plain_evaluate_second_derivatives(
    size_t order, size_t rows, const double *restrict points, size_t points_length, double *restrict tn, size_t tn_length,
    double *restrict dtn, size_t dtn_length, double *restrict ddtn, size_t ddtn_length);
uint8_t plain_get_m2m_transfer_operators(
    size_t order, const double *restrict nodes, size_t nodes_length, const double *restrict node_polynomials,
    size_t node_polynomials_length, double *restrict operators, size_t operators_length);
uint8_t plain_apply_cheb_tensor_transfer(
    size_t dimension, size_t order, size_t child, bool transpose, const double *restrict input, size_t input_length,
    const double *restrict operators, size_t operators_length, double *restrict first, size_t first_length,
    double *restrict second, size_t second_length);
uint8_t plain_generate_chebyshev_target_points(
    size_t dimension, size_t order, double side, const double *restrict nodes, size_t nodes_length, double *restrict points,
    size_t points_length);
uint8_t plain_generate_chebyshev_source_points(
    size_t dimension, size_t order, double side, size_t reference, const double *restrict nodes, size_t nodes_length,
    double *restrict points, size_t points_length);
double plain_square_root(double x);
uint8_t plain_sample_distances(
    size_t dimension, size_t order, double side, size_t reference, const double *restrict nodes, size_t nodes_length,
    double *restrict sources, size_t sources_length, double *restrict targets, size_t targets_length, double *restrict block,
    size_t block_length);
uint8_t plain_scale_points(
    size_t dimension, size_t rows, double side, const double *restrict centre, size_t centre_length, double *restrict points,
    size_t points_length);
uint8_t plain_get_approximation_coefficients(
    size_t dimension, size_t order, size_t rows, bool with_gradients, double side, const double *restrict node_polynomials,
    size_t node_polynomials_length, const double *restrict coordinates, size_t coordinates_length, double *restrict values,
    size_t values_length, double *restrict gradients, size_t gradients_length, double *restrict factors, size_t factors_length,
    double *restrict slopes, size_t slopes_length);
uint8_t plain_get_curvature_coefficients(
    size_t dimension, size_t order, size_t rows, double side, const double *restrict node_polynomials,
    size_t node_polynomials_length, const double *restrict coordinates, size_t coordinates_length, double *restrict curvatures,
    size_t curvatures_length, double *restrict factors, size_t factors_length, double *restrict slopes, size_t slopes_length,
    double *restrict bends, size_t bends_length, double *restrict room, size_t room_length);
uint8_t plain_graham_ratios(
    size_t dimension, size_t order, double side, size_t rows, double floor, const double *restrict centre, size_t centre_length,
    const double *restrict node_polynomials, size_t node_polynomials_length, double *restrict points, size_t points_length,
    const double *restrict carbon_monoxide, size_t carbon_monoxide_length, const double *restrict nitrogen, size_t nitrogen_length,
    const double *restrict oxygen, size_t oxygen_length, double *restrict values, size_t values_length, double *restrict factors,
    size_t factors_length, uint8_t *restrict answers, size_t answers_length, double *restrict ratios, size_t ratios_length);
uint64_t plain_block_size(const uint8_t *restrict text, size_t text_length, size_t *restrict sizes, size_t sizes_length);
uint64_t plain_read_block(
    const uint8_t *restrict text, size_t text_length, double *restrict block, size_t block_length, size_t *restrict sizes,
    size_t sizes_length);
uint64_t plain_write_block(
    size_t rows, size_t columns, const double *restrict block, size_t block_length, uint8_t *restrict text, size_t text_length,
    size_t *restrict written, size_t written_length);
uint8_t plain_argmax_masked(
    const double *restrict entries, size_t entries_length, const uint8_t *restrict mask, size_t mask_length,
    size_t *restrict place, size_t place_length);
uint8_t plain_calculate_singular_values_cutoff(
    const double *restrict values, size_t values_length, double epsilon, size_t *restrict place, size_t place_length);
uint8_t plain_aca_partial_pivoting(
    size_t rows, size_t columns, const double *restrict samples, size_t samples_length, double epsilon, bool restart,
    double *restrict u, size_t u_length, double *restrict v, size_t v_length, uint16_t *restrict row_list, size_t row_list_length,
    uint16_t *restrict column_list, size_t column_list_length, double *restrict row, size_t row_length, double *restrict column,
    size_t column_length, size_t *restrict counts, size_t counts_length, double *restrict numbers, size_t numbers_length);

/* The numbers that an order, and a dimension with an order, bring; 0 is none. An order to the power of a dimension. */
static inline uint8_t of_order(size_t order)
{
    return order < 1 || order > 16 ? BBFMM_NO_ORDER : 0;
}

static inline uint8_t of_shape(size_t dimension, size_t order)
{
    return dimension < 1 || dimension > 3 ? BBFMM_NO_DIMENSION : of_order(order);
}

static inline bool is_side(double side)
{
    return side >= 0x1p-20 && side <= 0x1p30;
}

static inline bool is_finite(double x)
{
    return x - x == 0;
}

static inline bool are_finite(const double *list, size_t count)
{
    bool are = true;
    for (size_t i = 0; i < count; i++) {
        are = are && is_finite(list[i]);
    }
    return are;
}

/* Whether the points are in the cell on one axis: at most 1 + 2^-20 halves of the side from the centre. */
static inline bool are_in_cell(const double *x, size_t rows, double side, double centre)
{
    const double border = 1 + 1.0 / 1048576;
    bool are = true;
    for (size_t i = 0; i < rows; i++) {
        double at = (x[i] - centre) / (side * 0.5);
        are &= (-border <= at) & (at <= border);
    }
    return are;
}

/* The number that a cell's side, its centre and the points bring; 0 is none. */
static inline uint8_t of_points(size_t dimension, double side, size_t rows, const double *centre, const double *points)
{
    if (!is_side(side)) {
        return BBFMM_NO_CELL;
    }
    if (!are_finite(points, dimension * rows) || !are_finite(centre, dimension)) {
        return BBFMM_NOT_FINITE;
    }
    for (size_t axis = 0; axis < dimension; axis++) {
        if (!are_in_cell(points + axis * rows, rows, side, centre[axis])) {
            return BBFMM_OUT_OF_CELL;
        }
    }
    return 0;
}

static inline size_t power(size_t base, size_t exponent)
{
    size_t result = 1;
    for (size_t i = 0; i < exponent; i++) {
        result *= base;
    }
    return result;
}

#endif
