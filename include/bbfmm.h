/*
 * The operators behind the goaf gas maps, for C and C++: Chebyshev nodes and polynomials, transfer between a block and its
 * children, turning a block, points, square roots and distances, coefficients of values, gradients and curvature, ratio maps, blocks
 * as Matrix Market texts, cross approximation.
 *
 * `tools/library` proves the calls and writes target/staticlib/libbbfmm.a, for x86-64. The archive takes memcpy and memset
 * from the C library and nothing else. It allocates nothing and keeps nothing between calls. No call takes more than 2 KiB of stack.
 *
 * NUMBERS. Every call answers BBFMM_DONE or the number of a refusal; bbfmm_square_root alone refuses nothing and answers a float.
 * After a refusal every lent buffer is as it came. With several faults the lowest number is given; the calls on texts have an order of
 * their own, by lines, and answer a line too. Each call ends, whatever it is given.
 *
 * BUFFERS. A buffer is two arguments: a pointer to its first entry, and how many entries it has. A const buffer is only read. The
 * lengths below are exact, but for texts: any other is refused with BBFMM_WRONG_LENGTH. What no call can test, the caller sees to:
 * a pointer is not null, even where the length is 0, is aligned for its type, and has so many entries behind it; no buffer that is
 * written overlaps another of the call; a bool is true or false.
 *
 * MATRICES are column-major: with R rows, the entry of row i and column j stands at i + j * R.
 *
 * LETTERS. D is the dimension, 1 to 3; p is the order, 1 to 16, which is how many nodes a block has an axis; N is p to the power
 * of D, all its nodes; P is the number of points. Nodes are numbered with the last axis varying fastest.
 *
 * FLOATS may be any, NaN and infinities included, where no refusal says otherwise. Each operation rounds once.
 */
#ifndef BBFMM_H
#define BBFMM_H

#include <stdbool.h>
#include <stddef.h>
#include <stdint.h>

#ifdef __cplusplus
extern "C" {
#endif

/* What a call answers. */
enum {
    BBFMM_DONE = 0,
    BBFMM_NO_DIMENSION = 1, /* the dimension is not 1, 2 or 3 */
    BBFMM_NO_ORDER = 2,     /* the order is not 1 to 16 */
    BBFMM_NO_COUNT = 3,     /* too many points, entries, singular values, rows or columns, no singular values, or too many nodes
                               in a block of distances */
    BBFMM_NO_ENTRY = 4,     /* one of a vector's first D entries is outside -3 to 3 */
    BBFMM_NO_CASE = 5,      /* a case, a reference number, a child or a node is not below how many there are */
    BBFMM_NOT_ZERO = 6,     /* an entry of a vector past the first D is not 0 */
    BBFMM_WRONG_LENGTH = 7, /* a buffer has not its length */
    BBFMM_NO_CELL = 8,      /* a cell's length is not from 2^-20 to 2^30 */
    BBFMM_NOT_FINITE = 9,   /* a coordinate of a point, of the centre or of reference coordinates is not finite */
    BBFMM_NO_MASK = 10,     /* a byte of a mask is not 0 or 1 */
    BBFMM_OUT_OF_CELL = 11, /* a point that is to be scaled has a reference coordinate above 1 + 2^-20 in size */
    BBFMM_NO_FLOOR = 12,    /* the floor of a ratio map is not a finite number above 0 */
    BBFMM_NO_FIRST_LINE = 13, /* a Matrix Market text has not the first line that is read */
    BBFMM_NO_SIZE = 14,     /* it has no size line, or a size is not 0 to 1,024 */
    BBFMM_BAD_ENTRY = 15,   /* an entry is not a whole number of at most 2^53 in size, or, in writing, is -0.0 */
    BBFMM_WRONG_COUNT = 16, /* there are too few entries, or too many */
    BBFMM_NO_SET = 17       /* a set of nodes is not 0 or 1 */
};

/* What the calls that read and write Matrix Market texts answer, taken apart: BBFMM_DONE or the number of a refusal; and the line that
   the refusal speaks of, from 1, or 0 where it speaks of none. */
#define BBFMM_NUMBER(answer) ((uint8_t)((answer) % 256))
#define BBFMM_LINE(answer) ((uint64_t)(answer) / 256)

/* What a ratio map answers at a point. */
enum {
    BBFMM_AIR_RATIO = 0,    /* the point has a ratio */
    BBFMM_AIR_UNUSABLE = 1, /* unusable field: the deficiency or the ratio is not finite. It does not say what the air is like */
    BBFMM_AIR_FRESH = 2     /* fresh air: the deficiency is below the floor, or even below 0, so that a ratio would tell nothing */
};

/* Why a cross approximation ended. The old mode answers 1, 2 or 3, and restart mode 1, 3 or 4. */
enum {
    BBFMM_STOP_TOLERABLE = 1, /* the last term is small against the estimate: norm <= (epsilon*epsilon) * estimate */
    BBFMM_STOP_SPENT = 2,     /* old mode only: the row that was read has no usable pivot, since its pivot is below 2^-52 in size; a
                                 NaN is not. It does not say that nothing is left: other rows may be unread */
    BBFMM_STOP_USED_UP = 3,   /* there are as many terms as the block has rows or columns */
    BBFMM_STOP_ALL_TRIED = 4  /* restart mode only: every row has been tried */
};

/* TURNING A BLOCK */

/*
 * Looks up the vector (x, y, z) between two blocks.
 * answer: 4 entries. The vector's index among all of its dimension, the first axis slowest; its case; the number of its reference
 *     vector; 1 if it is near, else 0. A near vector has no reference: its number 0 names none.
 * Refuses with 1, 4, 6, 7.
 */
uint8_t bbfmm_look_up(size_t dimension, int32_t x, int32_t y, int32_t z, size_t *answer, size_t answer_length);

/*
 * Follows one node, below N, of the reference block under the table of the case of the vector (x, y, z), near or far; no table is
 * filled.
 * answer: 2 entries. The node of the turned block that the node goes to; the node of the reference block that comes to the node's
 *     place. They are the entries at the node of the table and of its inverse.
 * Refuses with 1, 2, 4, 5, 6, 7.
 */
uint8_t bbfmm_follow_node(
    size_t dimension, size_t order, int32_t x, int32_t y, int32_t z, size_t node, size_t *answer, size_t answer_length);

/*
 * The reference vector with this number, which is below 2, 7, 16 for dimension 1, 2, 3.
 * vector: 3 entries. Those past the dimension become 0.
 * Refuses with 1, 5, 7.
 */
uint8_t bbfmm_reference_vector(size_t dimension, size_t number, int32_t *vector, size_t vector_length);

/*
 * The table of a case, which is below 2, 8, 48 for dimension 1, 2, 3.
 * table: N entries. Entry n becomes the node of the turned block that node n of the reference block goes to.
 * Refuses with 1, 2, 5, 7.
 */
uint8_t bbfmm_combined_permutation(
    size_t dimension, size_t order, size_t case_number, uint16_t *table, size_t table_length);

/*
 * The inverse of that table.
 * table: N entries. Entry n becomes the node of the reference block that goes to node n of the turned block.
 * Refuses with 1, 2, 5, 7.
 */
uint8_t bbfmm_inverse_permutation(
    size_t dimension, size_t order, size_t case_number, uint16_t *table, size_t table_length);

/* NODES AND POLYNOMIALS */

/*
 * The Chebyshev nodes of an order.
 * nodes: p entries. They become the nodes, rising.
 * Refuses with 2, 7.
 */
uint8_t bbfmm_generate_chebyshev_nodes(size_t order, double *nodes, size_t nodes_length);

/* A set of nodes: the Rust's, which bbfmm_generate_chebyshev_nodes gives; and the mirror-exact one, the upper half of the Rust's with
   its exact negations below, and +0.0 in the middle of an odd order. */
enum { BBFMM_SET_RUST = 0, BBFMM_SET_MIRROR_EXACT = 1 };

/*
 * The Chebyshev nodes of an order in a set. With points that are made of the mirror-exact ones, a turned block sees exactly the
 * distances of the stored one: on each axis the difference between a source and a target coordinate has the same bits but for the sign.
 * nodes: p entries. They become the nodes, rising.
 * Refuses with 2, 7, 17.
 */
uint8_t bbfmm_generate_node_set(size_t order, size_t set, double *nodes, size_t nodes_length);

/*
 * The Chebyshev polynomials at points, of which there are P = rows, at most 4,096; and, if wanted, their derivatives.
 * points: P entries.
 * tn: P by p. Column j becomes T_j at the points.
 * dtn: P by p with derivatives, else 0 entries. Column j becomes the derivative of T_j at the points.
 * Refuses with 2, 3, 7.
 */
uint8_t bbfmm_evaluate_chebyshev_polynomials(
    size_t order, size_t rows, const double *points, size_t points_length, bool with_derivatives, double *tn, size_t tn_length,
    double *dtn, size_t dtn_length);

/*
 * The Chebyshev polynomials at points, of which there are P = rows, at most 4,096; their derivatives, and their second derivatives.
 * points: P entries.
 * tn, dtn: P by p each. They become what bbfmm_evaluate_chebyshev_polynomials leaves there with derivatives.
 * ddtn: P by p. Column j becomes the second derivative of T_j at the points.
 * Refuses with 2, 3, 7.
 */
uint8_t bbfmm_evaluate_second_derivatives(
    size_t order, size_t rows, const double *points, size_t points_length, double *tn, size_t tn_length, double *dtn,
    size_t dtn_length, double *ddtn, size_t ddtn_length);

/* TRANSFER */

/*
 * The operators from a child's nodes to its parent's, on one axis.
 * nodes: p entries.
 * node_polynomials: p by p. Column k has T_k at the nodes.
 * operators: p by 2p. The first p columns become the operator of the lower child, the others that of the upper.
 * Refuses with 2, 7.
 */
uint8_t bbfmm_get_m2m_transfer_operators(
    size_t order, const double *nodes, size_t nodes_length, const double *node_polynomials, size_t node_polynomials_length,
    double *operators, size_t operators_length);

/*
 * Moves the values at the nodes of a child to its block, or, with transpose, from the block to the child. The child is below 2, 4,
 * 8 for dimension 1, 2, 3; it is the upper one on axis a where bit a of it is 1.
 * input: N entries.
 * operators: p by 2p, as from bbfmm_get_m2m_transfer_operators.
 * first, second: N entries each. The result comes into `first` for dimension 2, and into `second` otherwise. The other buffer
 *     becomes what the last pass read.
 * Refuses with 1, 2, 5, 7.
 */
uint8_t bbfmm_apply_cheb_tensor_transfer(
    size_t dimension, size_t order, size_t child, bool transpose, const double *input, size_t input_length,
    const double *operators, size_t operators_length, double *first, size_t first_length, double *second, size_t second_length);

/* POINTS */

/*
 * Where the nodes of a block of this length lie, about the origin.
 * nodes: p entries.
 * points: N by D. Row n becomes the place of node n.
 * Refuses with 1, 2, 7, 8.
 */
uint8_t bbfmm_generate_chebyshev_target_points(
    size_t dimension, size_t order, double length, const double *nodes, size_t nodes_length, double *points,
    size_t points_length);

/*
 * The same for the block at the reference vector with this number, which is below 2, 7, 16 for dimension 1, 2, 3.
 * nodes: p entries.
 * points: N by D. Row n becomes the place of node n.
 * Refuses with 1, 2, 5, 7, 8.
 */
uint8_t bbfmm_generate_chebyshev_source_points(
    size_t dimension, size_t order, double length, size_t reference, const double *nodes, size_t nodes_length, double *points,
    size_t points_length);

/* DISTANCES */

/*
 * The square root of x, which may be any float, correctly rounded to nearest even. +0.0, -0.0 and plus infinity give themselves.
 * NaN, minus infinity and every other number below 0 give NaN.
 * Answers the root and no number: there is nothing to refuse.
 */
double bbfmm_square_root(double x);

/*
 * How far each node of the source block is from each node of the target block. The target block lies about the origin, the source
 * block at the reference vector with this number, which is below 2, 7, 16 for dimension 1, 2, 3. N is at most 1,024.
 * nodes: p entries.
 * sources, targets: N by D each. They become where the nodes of the source block lie, and those of the target block, as
 *     bbfmm_generate_chebyshev_source_points and bbfmm_generate_chebyshev_target_points leave them.
 * block: N by N, a row a source, a column a target. Each entry becomes the distance between the two: on each axis source less
 *     target, the squares of these added in axis order, and bbfmm_square_root of the sum, in one dimension too.
 * Refuses with 1, 2, 3, 5, 7, 8.
 */
uint8_t bbfmm_sample_distances(
    size_t dimension, size_t order, double length, size_t reference, const double *nodes, size_t nodes_length, double *sources,
    size_t sources_length, double *targets, size_t targets_length, double *block, size_t block_length);

/* COEFFICIENTS */

/*
 * Coefficients take two calls: the first scales points, the second takes what the first leaves. Values, then gradients, then curvature,
 * at the same points need one scaling. What is scaled already must not be scaled again: it would be taken for other points. If the
 * second call refuses, the points stay scaled.
 */

/*
 * Scales points in a cell of this length, of which there are P = rows, at most 4,096. None is scaled before all are known to pass.
 * centre: D entries.
 * points: P by D, a row a point. They become reference coordinates, (point - centre) / (length * 0.5), from -1 to 1 in the cell.
 *     A point with one above 1 + 2^-20 in size does not belong to the cell.
 * Refuses with 1, 3, 7, 8, 9, 11.
 */
uint8_t bbfmm_scale_points(
    size_t dimension, size_t rows, double length, const double *centre, size_t centre_length, double *points,
    size_t points_length);

/*
 * What each node of a cell counts for at points, of which there are P = rows, at most 4,096; and, if wanted, how that changes along
 * each axis. The points are given by reference coordinates, and the slopes are along the axes of the cell itself: for these the call
 * needs the cell's length. Without gradients the length is not looked at, and may be any float.
 * node_polynomials: p by p. Column k has T_k at the nodes.
 * coordinates: P by D, a row a point, as bbfmm_scale_points leaves them. A coordinate outside the cell is taken.
 * values: P by N. Column n becomes what node n counts for.
 * gradients: P by D * N with gradients, else 0 entries. Column g * N + n becomes the slope of that along axis g.
 * factors: P by D * p, room to work in. Column a * p + n becomes the share of index n on axis a.
 * slopes: P by D * p with gradients, else 0 entries, room to work in. Column a * p + n becomes the slope of that share.
 * Refuses with 1, 2, 3, 7, 8, 9, of which 8 with gradients only.
 */
uint8_t bbfmm_get_approximation_coefficients(
    size_t dimension, size_t order, size_t rows, bool with_gradients, double length, const double *node_polynomials,
    size_t node_polynomials_length, const double *coordinates, size_t coordinates_length, double *values, size_t values_length,
    double *gradients, size_t gradients_length, double *factors, size_t factors_length, double *slopes, size_t slopes_length);

/*
 * The curvature of what each node of a cell of this length counts for, at points, of which there are P = rows, at most 4,096: its second
 * derivative along each pair of axes g, h with g <= h, the pairs in the order (0,0), (0,1), (0,2), (1,1), (1,2), (2,2) as far as D goes.
 * The points are given by reference coordinates, and the curvature is along the axes of the cell itself.
 * node_polynomials: p by p. Column k has T_k at the nodes.
 * coordinates: P by D, a row a point, as bbfmm_scale_points leaves them. A coordinate outside the cell is taken.
 * curvatures: P by N * D * (D + 1) / 2. Column q * N + n becomes the curvature of what node n counts for, along pair number q.
 * factors, slopes: P by D * p each, room to work in. They become what bbfmm_get_approximation_coefficients leaves there with gradients.
 * bends: P by D * p, room to work in. Column a * p + n becomes the second derivative of the share of index n on axis a.
 * room: P by 3 * p, room to work in. It becomes T, T' and T'' at the coordinates of the last axis, in this order, as
 *     bbfmm_evaluate_second_derivatives leaves them.
 * Refuses with 1, 2, 3, 7, 8, 9.
 */
uint8_t bbfmm_get_curvature_coefficients(
    size_t dimension, size_t order, size_t rows, double length, const double *node_polynomials, size_t node_polynomials_length,
    const double *coordinates, size_t coordinates_length, double *curvatures, size_t curvatures_length, double *factors,
    size_t factors_length, double *slopes, size_t slopes_length, double *bends, size_t bends_length, double *room,
    size_t room_length);

/* RATIO MAPS */

/*
 * Graham's ratio, 100 * CO / (0.265 * N2 - O2), at points in a cell of this length, of which there are P = rows, at most 4,096.
 * Each of the three gases is a local expansion, an entry a node. At a point a gas is the sum over the nodes of what the node counts
 * for there times the node's entry, added up from +0.0 in the order of the nodes. The deficiency there, how much oxygen is missing,
 * is (0.265*N2) - O2. Where it is below the floor nothing is divided by it. The floor is a finite number above 0, also where there
 * are no points.
 * centre: D entries.
 * node_polynomials: p by p. Column k has T_k at the nodes.
 * points: P by D, a row a point, not yet scaled. They become reference coordinates, as bbfmm_scale_points leaves them.
 * carbon_monoxide, nitrogen, oxygen: N entries each, the expansions of CO, N2 and O2.
 * values: P by N. Column n becomes what node n counts for.
 * factors: P by D * p, room to work in. They and the values become what bbfmm_get_approximation_coefficients leaves there without
 *     gradients.
 * answers: P entries. Each becomes a BBFMM_AIR. A deficiency that is not finite gives BBFMM_AIR_UNUSABLE. Then one below the floor
 *     gives BBFMM_AIR_FRESH, whatever the carbon monoxide is. Then a ratio, (100*CO) / deficiency, that is not finite gives
 *     BBFMM_AIR_UNUSABLE, and any other gives BBFMM_AIR_RATIO. So a deficiency that equals the floor can have a ratio.
 * ratios: P entries. An entry whose answer is BBFMM_AIR_RATIO becomes the ratio; the others stay as lent.
 * Refuses with 1, 2, 3, 7, 8, 9, 11, 12.
 */
uint8_t bbfmm_graham_ratios(
    size_t dimension, size_t order, double length, size_t rows, double floor, const double *centre, size_t centre_length,
    const double *node_polynomials, size_t node_polynomials_length, double *points, size_t points_length,
    const double *carbon_monoxide, size_t carbon_monoxide_length, const double *nitrogen, size_t nitrogen_length,
    const double *oxygen, size_t oxygen_length, double *values, size_t values_length, double *factors, size_t factors_length,
    uint8_t *answers, size_t answers_length, double *ratios, size_t ratios_length);

/* CHOICES */

/*
 * The first place of the largest size among the entries whose mask byte is 1, or 0 where none has a size above 0.
 * entries: at most 1,024.
 * mask: as many bytes, each 0 or 1.
 * place: 1 entry.
 * Refuses with 3, 7, 10.
 */
uint8_t bbfmm_argmax_masked(
    const double *entries, size_t entries_length, const uint8_t *mask, size_t mask_length, size_t *place, size_t place_length);

/*
 * The first place from which on the squares of the singular values, summed from the end, come to less than
 * (total*epsilon)*epsilon, total being the sum of all; or how many there are.
 * values: 1 to 1,024 entries.
 * place: 1 entry.
 * Refuses with 3, 7.
 */
uint8_t bbfmm_calculate_singular_values_cutoff(
    const double *values, size_t values_length, double epsilon, size_t *place, size_t place_length);

/* CROSS APPROXIMATION */

/*
 * Approximates a block of at most 1,024 rows and 1,024 columns by U times the transpose of V. The run stops by its own test, which
 * sees only the rows and columns that it read: epsilon bounds no error.
 *
 * restart chooses the mode. In the old mode, false, the run ends at the first row without a usable pivot, and it may read a row or
 * a column again. In restart mode, true, it reads no row twice and no column twice. A row has a pivot there if an entry of it in an
 * unread column, less the earlier terms, is at least 2^-52 in size; a NaN is no pivot. At a row without one nothing is stored, and
 * the lowest unread row is read next. That row is also taken where the next row would be one that was read already. If no row is
 * unread then, the run ends with BBFMM_STOP_ALL_TRIED. Stop 1 is tested first, then stop 3, and only then a next row is looked for.
 *
 * With m rows, n columns, and k for the lesser of the two:
 * samples: m by n, the block.
 * u: m by k, and v: n by k. A column of each becomes a term; as many as the rank says, and the others stay as lent.
 * row_list: k entries in the old mode, m in restart mode. They become the rows that were read in order, those without a pivot too.
 * column_list: k entries. They become the columns that were read in order. Unused places of both lists stay as lent.
 * row: n entries, and column: m entries, room to work in. They become the row and the column that were last worked on, the row less
 *     the earlier terms, and multiplied by 1/pivot if it had one; what was not worked on stays as lent.
 * counts: 3 entries. They become the rank, why the run ended, a BBFMM_STOP, and how many rows were read. As many columns were read
 *     as the rank says.
 * numbers: 2 entries. They become the estimate of the approximation's squared norm, and the smallest size among the pivots that rows
 *     were divided by. A NaN among these is passed over, and where none is a number it is +0.0; otherwise it is at least 2^-52.
 * Refuses with 3, 7.
 */
uint8_t bbfmm_aca_partial_pivoting(
    size_t rows, size_t columns, const double *samples, size_t samples_length, double epsilon, bool restart, double *u,
    size_t u_length, double *v, size_t v_length, uint16_t *row_list, size_t row_list_length, uint16_t *column_list,
    size_t column_list_length, double *row, size_t row_length, double *column, size_t column_length, size_t *counts,
    size_t counts_length, double *numbers, size_t numbers_length);

/* EXCHANGE */

/*
 * The calls below take blocks from Matrix Market texts and back: array format, integer field, general symmetry, entries by columns.
 * They answer number + 256 * line. With several faults the one on the earliest line is told, before any BBFMM_WRONG_LENGTH, whose line
 * is 0.
 *
 * A text is its lines, each ended by a newline, byte 10; the last newline may lack. The first line is
 * `%%MatrixMarket matrix array integer general`, the four words after the banner in any letter case. Then come comments, which begin
 * with %, and blank lines, which have nothing or spaces only; the size line, rows and columns, 0 to 1,024 each, parted by spaces; and
 * the entries, one a line, each an optional minus and digits, at most 2^53 in size. Nothing else stands in a line, and nothing
 * follows the entries.
 */

/*
 * How many rows and columns the block of a text has. What follows the size line is not looked at.
 * text: any bytes.
 * sizes: 2 entries. They become the rows and the columns.
 * Refuses with 13, 14, 7, in this order.
 */
uint64_t bbfmm_block_size(const uint8_t *text, size_t text_length, size_t *sizes, size_t sizes_length);

/*
 * Reads the block of a text.
 * text: any bytes.
 * block: rows by columns. Each entry becomes its number, of which nothing is rounded; -0 becomes +0.0.
 * sizes: 2 entries. They become the rows and the columns.
 * Refuses with 13, 14, 15, 16, in the order of lines; then with 7.
 */
uint64_t bbfmm_read_block(
    const uint8_t *text, size_t text_length, double *block, size_t block_length, size_t *sizes, size_t sizes_length);

/*
 * Writes a block as a text, which bbfmm_read_block reads as the same block.
 * block: rows by columns.
 * text: at least as many bytes as are written. Those past them stay as lent.
 * written: 1 entry. It becomes how many bytes are written.
 * Refuses with 14 at line 2; then with 7 for the block; then with 15 at the line that the entry would have; then with 7 for the text
 * and for written.
 */
uint64_t bbfmm_write_block(
    size_t rows, size_t columns, const double *block, size_t block_length, uint8_t *text, size_t text_length, size_t *written,
    size_t written_length);

#ifdef __cplusplus
}
#endif

#endif
