/* Makes one call so many times: `beside SIDE CALL SIZE TIMES`, where SIDE is `ours` or `plain`, and calls and sizes are numbered as
   bench/src/measures.rs has them. `beside check` makes every call on both sides and compares all that they write. */
#include "plain.h"

int printf(const char *format, ...);
int strcmp(const char *left, const char *right);
int atoi(const char *word);
int memcmp(const void *left, const void *right, size_t bytes);
void *malloc(size_t bytes);
void *calloc(size_t count, size_t bytes);
void free(void *place);

enum { CALLS = 33, SIZES = 3, NUMBERS = 1000, NODES = 4096, GIVEN = 16384 };

static const size_t DIMENSIONS[SIZES] = {1, 2, 3};
static const size_t ORDERS[SIZES] = {2, 8, 16};
static const size_t COUNTS[SIZES] = {16, 128, 1024};
static const size_t MANY_POINTS[SIZES] = {16, 256, 4096};
static const size_t CELL_POINTS[SIZES] = {1, 64, 4096};
static const size_t MAP_DIMENSIONS[SIZES] = {1, 3, 3};
static const size_t ROOTS[SIZES] = {1, 100, NUMBERS};
static const size_t SAMPLED_ORDERS[SIZES] = {2, 8, 10};
static const int32_t VECTORS[SIZES][3] = {{-2, 0, 0}, {0, -2, 0}, {0, -2, 1}};

/* What the calls are given, and what they write: the results of one side stand in one stretch, so that two sides can be compared. Points
   alone are scaled where they are given. */
static double *given;
static double *nodes;
static double *polynomials;
static double *samples;
static double *values;
static double numbers[NUMBERS];
static double carbon_monoxide[NODES];
static double nitrogen[NODES];
static double oxygen[NODES];
static double *whole;
static uint8_t *text;
static size_t text_length;
static uint8_t *mask;
static double *written;
static uint16_t *table;
static size_t answer[4];
static int32_t vector[3];
static size_t written_count;
static size_t table_count;

/* A normal float above 0: all exponents and fractions, spread evenly and in no order. */
static double normal(size_t k)
{
    uint64_t bits = (k + 1) * 0x9e3779b97f4a7c15;
    union {
        uint64_t bits;
        double number;
    } both = {(1 + (bits >> 52) % 2046) << 52 | (bits & 0xfffffffffffff)};
    return both.number;
}

/* The air of an old goaf, about the readings of docs/EVIDENCE.md: every point has a ratio. */
static void make_air(void)
{
    for (size_t k = 0; k < NODES; k++) {
        carbon_monoxide[k] = 0.006 + given[k] * 0.001;
        nitrogen[k] = 86 + given[k + 1] * 0.1;
        oxygen[k] = 9.79 + given[k + 2] * 0.1;
    }
}

/* A block of whole numbers of all lengths, half of them negative, and its text; as bench/src/measures/exchange.rs has them. */
static void make_text(size_t count)
{
    size_t entries = count * count;
    size_t room = 54 + 18 * entries;
    whole = malloc(entries * sizeof *whole);
    text = malloc(room);
    for (size_t k = 0; k < entries; k++) {
        uint64_t bits = (k + 1) * 0x9e3779b97f4a7c15;
        double size = (double)(bits >> 11 >> k % 53);
        whole[k] = k % 2 == 1 && size > 0 ? -size : size;
    }
    plain_write_block(count, count, whole, entries, text, room, &text_length, 1);
}

/* Floats between -1 and 1, in no order; nodes and polynomials there; a smooth block; values that fall; a mask; normal floats; air. */
static void make(size_t call, size_t size)
{
    size_t order = call == 15 ? SAMPLED_ORDERS[size] : ORDERS[size];
    size_t count = COUNTS[size];
    size_t each = power(order, 3) * 4096;
    bool has_values = call == 17 || call == 21 || call == 23;
    bool has_gradients = call == 18 || call == 22;
    bool has_curvatures = call == 32;
    written_count = has_curvatures ? 6 * each + 1000000 : has_gradients ? 4 * each + 500000 : has_values ? each + 500000 : 2400000;
    table_count = 8192;
    given = malloc(GIVEN * sizeof *given);
    nodes = malloc(16 * sizeof *nodes);
    polynomials = malloc(256 * sizeof *polynomials);
    samples = malloc(count * count * sizeof *samples);
    values = malloc(count * sizeof *values);
    mask = malloc(count);
    written = calloc(written_count, sizeof *written);
    table = calloc(table_count, sizeof *table);
    for (size_t k = 0; k < GIVEN; k++) {
        given[k] = (double)(k * 7919 % 10007) / 5003.5 - 1;
    }
    bbfmm_generate_chebyshev_nodes(order, nodes, order);
    bbfmm_evaluate_chebyshev_polynomials(order, order, nodes, order, false, polynomials, order * order, 0, 0);
    for (size_t k = 0; k < count * count; k++) {
        samples[k] = 1 / (1.5 + (double)(k / count) / (double)count - (double)(k % count) / (double)count);
    }
    for (size_t k = 0; k < count; k++) {
        values[k] = 1 / (double)(k + 1);
        mask[k] = k % 3 != 0;
    }
    for (size_t k = 0; k < NUMBERS; k++) {
        numbers[k] = normal(k);
    }
    make_air();
    if (call == 28 || call == 29) {
        make_text(count);
    }
}

static void transfer(bool ours, size_t size, bool transpose)
{
    size_t d = DIMENSIONS[size];
    size_t p = ORDERS[size];
    size_t n = power(p, d);
    double *first = written;
    double *second = written + n;
    (ours ? bbfmm_apply_cheb_tensor_transfer : plain_apply_cheb_tensor_transfer)(
        d, p, 0, transpose, given, n, given, 2 * p * p, first, n, second, n);
}

static void polynomials_at(bool ours, size_t size, bool with_derivatives)
{
    size_t p = ORDERS[size];
    size_t rows = MANY_POINTS[size];
    double *tn = written;
    double *dtn = written + p * rows;
    (ours ? bbfmm_evaluate_chebyshev_polynomials : plain_evaluate_chebyshev_polynomials)(
                p, rows, given, rows, with_derivatives, tn, p * rows, dtn, with_derivatives ? p * rows : 0);
}

static void second_derivatives_at(bool ours, size_t size)
{
    size_t p = ORDERS[size];
    size_t rows = MANY_POINTS[size];
    double *tn = written;
    double *dtn = tn + p * rows;
    double *ddtn = dtn + p * rows;
    (ours ? bbfmm_evaluate_second_derivatives : plain_evaluate_second_derivatives)(
        p, rows, given, rows, tn, p * rows, dtn, p * rows, ddtn, p * rows);
}

/* The cell lies about the origin and has side 2, so that scaling leaves the points as they are, call after call. The number is kept,
   since where a point is refused nothing else is there to compare. */
static void scale(bool ours, size_t d, size_t rows)
{
    static const double centre[3] = {0, 0, 0};
    answer[0] = (ours ? bbfmm_scale_points : plain_scale_points)(d, rows, 2, centre, d, given, d * rows);
}

/* Points of which the very last coordinate is at fault: not finite, or out of the cell. So one call makes every test of the points but
   the last, and the other that too. */
static void refused(bool ours, size_t size, double last)
{
    size_t d = DIMENSIONS[size];
    size_t rows = MANY_POINTS[size];
    given[d * rows - 1] = last;
    scale(ours, d, rows);
}

/* The points lie between -1 and 1: they are reference coordinates as they are. */
static void coefficients(bool ours, size_t size, bool with_gradients)
{
    size_t d = DIMENSIONS[size];
    size_t p = ORDERS[size];
    size_t rows = CELL_POINTS[size];
    size_t n = power(p, d) * rows;
    size_t axes = d * p * rows;
    double *factors = written;
    double *slopes = factors + axes;
    double *of_values = slopes + (with_gradients ? axes : 0);
    double *gradients = of_values + n;
    (ours ? bbfmm_get_approximation_coefficients : plain_get_approximation_coefficients)(
        d, p, rows, with_gradients, 2, polynomials, p * p, given, d * rows, of_values, n, gradients, with_gradients ? d * n : 0,
        factors, axes, slopes, with_gradients ? axes : 0);
}

static void curvature(bool ours, size_t size)
{
    size_t d = DIMENSIONS[size];
    size_t p = ORDERS[size];
    size_t rows = CELL_POINTS[size];
    size_t n = d * (d + 1) / 2 * power(p, d) * rows;
    size_t axes = d * p * rows;
    double *factors = written;
    double *slopes = factors + axes;
    double *bends = slopes + axes;
    double *room = bends + axes;
    double *curvatures = room + 3 * p * rows;
    (ours ? bbfmm_get_curvature_coefficients : plain_get_curvature_coefficients)(
        d, p, rows, 2, polynomials, p * p, given, d * rows, curvatures, n, factors, axes, slopes, axes, bends, axes, room, 3 * p * rows);
}

/* What one call did before they were two. */
static void pair(bool ours, size_t size, bool with_gradients)
{
    scale(ours, DIMENSIONS[size], CELL_POINTS[size]);
    coefficients(ours, size, with_gradients);
}

/* As many points as for the coefficients. The answers stand where else a table does. */
static void map(bool ours, size_t size)
{
    static const double centre[3] = {0, 0, 0};
    size_t d = MAP_DIMENSIONS[size];
    size_t p = ORDERS[size];
    size_t rows = CELL_POINTS[size];
    size_t n = power(p, d);
    size_t axes = d * p * rows;
    double *factors = written;
    double *of_values = factors + axes;
    double *ratios = of_values + n * rows;
    (ours ? bbfmm_graham_ratios : plain_graham_ratios)(
        d, p, 2, rows, 0.1, centre, d, polynomials, p * p, given, d * rows, carbon_monoxide, n, nitrogen, n, oxygen, n, of_values,
        n * rows, factors, axes, (uint8_t *)table, rows, ratios, rows);
}

static void permutation(bool ours, size_t d, size_t p, size_t number, bool is_inverse, uint16_t *to)
{
    size_t n = power(p, d);
    if (is_inverse) {
        (ours ? bbfmm_inverse_permutation : plain_inverse_permutation)(d, p, number, to, n);
    } else {
        (ours ? bbfmm_combined_permutation : plain_combined_permutation)(d, p, number, to, n);
    }
}

static void look_up(bool ours, size_t d, int32_t x, int32_t y, int32_t z)
{
    (ours ? bbfmm_look_up : plain_look_up)(d, x, y, z, answer, 4);
}

static void follow(bool ours, size_t d, size_t p, int32_t x, int32_t y, int32_t z)
{
    (ours ? bbfmm_follow_node : plain_follow_node)(d, p, x, y, z, power(p, d) / 2, answer, 2);
}

static void reference(bool ours, size_t d, size_t number)
{
    (ours ? bbfmm_reference_vector : plain_reference_vector)(d, number, vector, 3);
}

/* The references, every vector looked up, and both tables of every case. */
static void turn(bool ours, size_t size)
{
    static const size_t CASES[SIZES] = {2, 8, 48};
    static const size_t REFERENCES[SIZES] = {2, 7, 16};
    size_t d = DIMENSIONS[size];
    size_t p = ORDERS[size];
    for (size_t number = 0; number < REFERENCES[size]; number++) {
        reference(ours, d, number);
    }
    for (size_t k = 0; k < power(7, d); k++) {
        look_up(ours, d, (int32_t)(k % 7) - 3, d > 1 ? (int32_t)(k / 7 % 7) - 3 : 0, d > 2 ? (int32_t)(k / 49) - 3 : 0);
    }
    for (size_t number = 0; number < CASES[size]; number++) {
        permutation(ours, d, p, number, false, table);
        permutation(ours, d, p, number, true, table + 4096);
    }
}

static void points(bool ours, size_t size, bool are_sources)
{
    size_t d = DIMENSIONS[size];
    size_t p = ORDERS[size];
    size_t n = d * power(p, d);
    if (are_sources) {
        (ours ? bbfmm_generate_chebyshev_source_points : plain_generate_chebyshev_source_points)(d, p, 2, 1, nodes, p, written, n);
    } else {
        (ours ? bbfmm_generate_chebyshev_target_points : plain_generate_chebyshev_target_points)(d, p, 2, nodes, p, written, n);
    }
}

/* One root a number. A call could change what is not kept here, and reading it again would be counted with every root. */
static void roots(bool ours, size_t size)
{
    double (*root)(double) = ours ? bbfmm_square_root : plain_square_root;
    double *to = written;
    size_t count = ROOTS[size];
    for (size_t k = 0; k < count; k++) {
        to[k] = root(numbers[k]);
    }
}

static void sample(bool ours, size_t size)
{
    size_t d = DIMENSIONS[size];
    size_t p = SAMPLED_ORDERS[size];
    size_t n = power(p, d);
    double *sources = written;
    double *targets = sources + n * d;
    double *block = targets + n * d;
    (ours ? bbfmm_sample_distances : plain_sample_distances)(
        d, p, 2, 1, nodes, p, sources, n * d, targets, n * d, block, n * n);
}

/* The row list is as long in both modes, since the block is square. */
static void cross(bool ours, size_t size, bool restart)
{
    size_t n = COUNTS[size];
    double *u = written;
    double *v = u + n * n;
    double *row = v + n * n;
    double *column = row + n;
    double *told = column + n;
    (ours ? bbfmm_aca_partial_pivoting : plain_aca_partial_pivoting)(
        n, n, samples, n * n, 1e-6, restart, u, n * n, v, n * n, table, n, table + 4096, n, row, n, column, n, answer, 3, told, 2);
}

static void choose(bool ours, size_t size, bool is_cutoff)
{
    size_t n = COUNTS[size];
    if (is_cutoff) {
        (ours ? bbfmm_calculate_singular_values_cutoff : plain_calculate_singular_values_cutoff)(values, n, 0.01, answer, 1);
    } else {
        (ours ? bbfmm_argmax_masked : plain_argmax_masked)(given, n, mask, n, answer, 1);
    }
}

/* The text of a block, read; and the block, written. */
static void exchange(bool ours, size_t size, bool is_written)
{
    size_t n = COUNTS[size];
    if (is_written) {
        (ours ? bbfmm_write_block : plain_write_block)(n, n, whole, n * n, (uint8_t *)written, text_length, answer, 1);
    } else {
        (ours ? bbfmm_read_block : plain_read_block)(text, text_length, written, n * n, answer, 2);
    }
}

static void operators(bool ours, size_t size)
{
    size_t p = ORDERS[size];
    (ours ? bbfmm_get_m2m_transfer_operators : plain_get_m2m_transfer_operators)(
        p, nodes, p, polynomials, p * p, written, 2 * p * p);
}

static void of_nodes(bool ours, size_t size)
{
    (ours ? bbfmm_generate_chebyshev_nodes : plain_generate_chebyshev_nodes)(ORDERS[size], written, ORDERS[size]);
}

static void of_mirror_exact(bool ours, size_t size)
{
    (ours ? bbfmm_generate_node_set : plain_generate_node_set)(ORDERS[size], BBFMM_SET_MIRROR_EXACT, written, ORDERS[size]);
}

static void once(bool ours, size_t call, size_t size)
{
    size_t d = DIMENSIONS[size];
    const int32_t *v = VECTORS[size];
    switch (call) {
    case 0: of_nodes(ours, size); break;
    case 1: polynomials_at(ours, size, false); break;
    case 2: polynomials_at(ours, size, true); break;
    case 3: operators(ours, size); break;
    case 4: transfer(ours, size, false); break;
    case 5: transfer(ours, size, true); break;
    case 6: look_up(ours, d, v[0], v[1], v[2]); break;
    case 7: follow(ours, d, ORDERS[size], v[0], v[1], v[2]); break;
    case 8: reference(ours, d, 1); break;
    case 9: permutation(ours, d, ORDERS[size], 1, false, table); break;
    case 10: permutation(ours, d, ORDERS[size], 1, true, table); break;
    case 11: turn(ours, size); break;
    case 12: points(ours, size, false); break;
    case 13: points(ours, size, true); break;
    case 14: roots(ours, size); break;
    case 15: sample(ours, size); break;
    case 16: scale(ours, d, CELL_POINTS[size]); break;
    case 17: coefficients(ours, size, false); break;
    case 18: coefficients(ours, size, true); break;
    case 19: refused(ours, size, 1e308 * 10); break;
    case 20: refused(ours, size, 2); break;
    case 21: pair(ours, size, false); break;
    case 22: pair(ours, size, true); break;
    case 23: map(ours, size); break;
    case 24: choose(ours, size, false); break;
    case 25: choose(ours, size, true); break;
    case 26: cross(ours, size, false); break;
    case 27: cross(ours, size, true); break;
    case 28: exchange(ours, size, false); break;
    case 29: exchange(ours, size, true); break;
    case 30: of_mirror_exact(ours, size); break;
    case 31: second_derivatives_at(ours, size); break;
    default: curvature(ours, size); break;
    }
}

static bool is_alike(size_t call, size_t size)
{
    make(call, size);
    once(true, call, size);
    double *ours_given = given;
    double *ours_written = written;
    uint16_t *ours_table = table;
    size_t ours_answer[4] = {answer[0], answer[1], answer[2], answer[3]};
    int32_t ours_vector[3] = {vector[0], vector[1], vector[2]};
    make(call, size);
    once(false, call, size);
    bool is = memcmp(ours_given, given, GIVEN * sizeof *given) == 0 &&
              memcmp(ours_written, written, written_count * sizeof *written) == 0 &&
              memcmp(ours_table, table, table_count * sizeof *table) == 0 && memcmp(ours_answer, answer, sizeof answer) == 0 &&
              memcmp(ours_vector, vector, sizeof vector) == 0;
    /* The curvature of the largest size is 800 MB on each side. */
    free(ours_written);
    free(written);
    return is;
}

int main(int count, char **words)
{
    if (count == 2 && strcmp(words[1], "check") == 0) {
        int faults = 0;
        for (size_t call = 0; call < CALLS; call++) {
            for (size_t size = 0; size < SIZES; size++) {
                if (!is_alike(call, size)) {
                    printf("beside: call %zu, size %zu: plain C writes something else\n", call, size);
                    faults++;
                }
            }
        }
        printf("beside: %d of %d differ\n", faults, CALLS * SIZES);
        return faults != 0;
    }
    if (count != 5) {
        return 2;
    }
    size_t call = (size_t)atoi(words[2]);
    size_t size = (size_t)atoi(words[3]);
    make(call, size);
    for (int times = atoi(words[4]); times > 0; times--) {
        once(strcmp(words[1], "ours") == 0, call, size);
    }
    return 0;
}
