/* Every call of the library, with arguments that it takes and that keep it busy: three axes, order 16, the largest blocks. A call that is
   refused would take no stack, so that is a fault. */
#include "bbfmm.h"
#include "stack.h"

int printf(const char *format, ...);

enum { D = 3, P = 16, N = 4096, ROWS = 40, LINE = 1024, MOST = 2048, MOST_CROSS = 1024, TEXT = 1 << 24 };

static size_t faults;

static void expect(bool holds, const char *call)
{
    if (!holds) {
        printf("%s: refused\n", call);
        faults++;
    }
}

/* What is lent. */
static size_t three[3], four[4], two[2], one[1];
static int32_t vector[3];
static uint16_t table[N], row_list[LINE], column_list[LINE];
static double nodes[P], polynomials[P * P], derivatives[P * P], second_derivatives[P * P], operators[2 * P * P];
static double input[N], first[N], second[N];
static double points[N * D], sources[N * D], block[LINE * LINE];
static double centre[D], places[ROWS * D], values[ROWS * N], gradients[ROWS * N * D], factors[ROWS * P * D], slopes[ROWS * P * D];
static double curvatures[ROWS * N * 6], bends[ROWS * P * D], room[ROWS * P * 3];
static double gas[3][N], ratios[ROWS];
static uint8_t answers[ROWS], mask[LINE], text[TEXT];
static double u[LINE * LINE], v[LINE * LINE], row[LINE], column[LINE], numbers[2];
static size_t written;

static void look_up(void)
{
    expect(bbfmm_look_up(D, -3, 1, 2, four, 4) == 0, "bbfmm_look_up");
}

static void follow_node(void)
{
    expect(bbfmm_follow_node(D, P, -3, 1, 2, N - 1, two, 2) == 0, "bbfmm_follow_node");
}

static void reference_vector(void)
{
    expect(bbfmm_reference_vector(D, 15, vector, 3) == 0, "bbfmm_reference_vector");
}

static void combined_permutation(void)
{
    expect(bbfmm_combined_permutation(D, P, 47, table, N) == 0, "bbfmm_combined_permutation");
}

static void inverse_permutation(void)
{
    expect(bbfmm_inverse_permutation(D, P, 47, table, N) == 0, "bbfmm_inverse_permutation");
}

static void generate_nodes(void)
{
    expect(bbfmm_generate_chebyshev_nodes(P, nodes, P) == 0, "bbfmm_generate_chebyshev_nodes");
}

static void generate_mirror_exact_nodes(void)
{
    expect(bbfmm_generate_node_set(P, 1, nodes, P) == 0, "bbfmm_generate_node_set");
}

static void evaluate_polynomials(void)
{
    expect(bbfmm_evaluate_chebyshev_polynomials(P, P, nodes, P, true, polynomials, P * P, derivatives, P * P) == 0,
        "bbfmm_evaluate_chebyshev_polynomials");
}

static void evaluate_second(void)
{
    expect(bbfmm_evaluate_second_derivatives(P, P, nodes, P, polynomials, P * P, derivatives, P * P, second_derivatives, P * P) == 0,
        "bbfmm_evaluate_second_derivatives");
}

static void get_operators(void)
{
    expect(bbfmm_get_m2m_transfer_operators(P, nodes, P, polynomials, P * P, operators, 2 * P * P) == 0,
        "bbfmm_get_m2m_transfer_operators");
}

static void apply_transfer(void)
{
    expect(bbfmm_apply_cheb_tensor_transfer(D, P, 7, true, input, N, operators, 2 * P * P, first, N, second, N) == 0,
        "bbfmm_apply_cheb_tensor_transfer");
}

static void target_points(void)
{
    expect(bbfmm_generate_chebyshev_target_points(D, P, 3, nodes, P, points, N * D) == 0, "bbfmm_generate_chebyshev_target_points");
}

static void source_points(void)
{
    expect(bbfmm_generate_chebyshev_source_points(D, P, 3, 15, nodes, P, points, N * D) == 0,
        "bbfmm_generate_chebyshev_source_points");
}

static void square_root(void)
{
    expect(bbfmm_square_root(2) > 1, "bbfmm_square_root");
}

/* Three axes of order 10 have 1,000 nodes, the most that a block of distances takes. */
static void sample_distances(void)
{
    bbfmm_generate_chebyshev_nodes(10, nodes, 10);
    expect(bbfmm_sample_distances(D, 10, 3, 15, nodes, 10, sources, 3000, points, 3000, block, 1000000) == 0, "bbfmm_sample_distances");
    bbfmm_generate_chebyshev_nodes(P, nodes, P);
}

/* Small parts of the cell's side, so that the points are in it once more when they have been scaled. */
static void draw_places(void)
{
    for (size_t i = 0; i < ROWS * D; i++) {
        places[i] = (double)i * 0x1p-12;
    }
}

static void scale_points(void)
{
    draw_places();
    expect(bbfmm_scale_points(D, ROWS, 2, centre, D, places, ROWS * D) == 0, "bbfmm_scale_points");
}

static void get_coefficients(void)
{
    expect(bbfmm_get_approximation_coefficients(D, P, ROWS, true, 2, polynomials, P * P, places, ROWS * D, values, ROWS * N, gradients,
               ROWS * N * D, factors, ROWS * P * D, slopes, ROWS * P * D) == 0,
        "bbfmm_get_approximation_coefficients");
}

static void get_curvature(void)
{
    expect(bbfmm_get_curvature_coefficients(D, P, ROWS, 2, polynomials, P * P, places, ROWS * D, curvatures, ROWS * N * 6, factors,
               ROWS * P * D, slopes, ROWS * P * D, bends, ROWS * P * D, room, ROWS * P * 3) == 0,
        "bbfmm_get_curvature_coefficients");
}

static void graham_ratios(void)
{
    draw_places();
    expect(bbfmm_graham_ratios(D, P, 2, ROWS, 0.1, centre, D, polynomials, P * P, places, ROWS * D, gas[0], N, gas[1], N, gas[2], N, values,
               ROWS * N, factors, ROWS * P * D, answers, ROWS, ratios, ROWS) == 0,
        "bbfmm_graham_ratios");
}

static void write_block(void)
{
    expect(bbfmm_write_block(LINE, LINE, u, LINE * LINE, text, TEXT, one, 1) == 0, "bbfmm_write_block");
    written = one[0];
}

static void block_size(void)
{
    expect(bbfmm_block_size(text, written, two, 2) == 0, "bbfmm_block_size");
}

static void read_block(void)
{
    expect(bbfmm_read_block(text, written, v, LINE * LINE, two, 2) == 0, "bbfmm_read_block");
}

static void argmax(void)
{
    expect(bbfmm_argmax_masked(block, LINE, mask, LINE, one, 1) == 0, "bbfmm_argmax_masked");
}

static void cutoff(void)
{
    expect(bbfmm_calculate_singular_values_cutoff(block, LINE, 1e-3, one, 1) == 0, "bbfmm_calculate_singular_values_cutoff");
}

static void approximate(bool restart)
{
    expect(bbfmm_aca_partial_pivoting(LINE, LINE, block, LINE * LINE, 1e-9, restart, u, LINE * LINE, v, LINE * LINE, row_list, LINE,
               column_list, LINE, row, LINE, column, LINE, three, 3, numbers, 2) == 0,
        "bbfmm_aca_partial_pivoting");
}

static void approximate_in_old_mode(void)
{
    approximate(false);
}

static void approximate_in_restart_mode(void)
{
    approximate(true);
}

/* A smooth block, whose rank is small; its first 900 rows are zeros, so that restart mode has many to pass over. */
static void fill_block(void)
{
    for (size_t j = 0; j < LINE; j++) {
        for (size_t i = 0; i < LINE; i++) {
            block[i + j * LINE] = i < 900 && i > 0 ? 0 : 1 / (double)(1 + i + j);
        }
    }
}

static void fill_gases(void)
{
    for (size_t i = 0; i < N; i++) {
        gas[0][i] = 0.006;
        gas[1][i] = 86;
        gas[2][i] = 9.79;
    }
}

typedef struct {
    const char *name;
    void (*call)(void);
    size_t most;
} Call;

/* In an order in which each finds what it reads. */
static const Call CALLS[] = {
    {"bbfmm_look_up", look_up, MOST},
    {"bbfmm_follow_node", follow_node, MOST},
    {"bbfmm_reference_vector", reference_vector, MOST},
    {"bbfmm_combined_permutation", combined_permutation, MOST},
    {"bbfmm_inverse_permutation", inverse_permutation, MOST},
    {"bbfmm_generate_chebyshev_nodes", generate_nodes, MOST},
    {"bbfmm_generate_node_set", generate_mirror_exact_nodes, MOST},
    {"bbfmm_evaluate_chebyshev_polynomials", evaluate_polynomials, MOST},
    {"bbfmm_evaluate_second_derivatives", evaluate_second, MOST},
    {"bbfmm_get_m2m_transfer_operators", get_operators, MOST},
    {"bbfmm_apply_cheb_tensor_transfer", apply_transfer, MOST},
    {"bbfmm_generate_chebyshev_target_points", target_points, MOST},
    {"bbfmm_generate_chebyshev_source_points", source_points, MOST},
    {"bbfmm_square_root", square_root, MOST},
    {"bbfmm_sample_distances", sample_distances, MOST},
    {"bbfmm_scale_points", scale_points, MOST},
    {"bbfmm_get_approximation_coefficients", get_coefficients, MOST},
    {"bbfmm_get_curvature_coefficients", get_curvature, MOST},
    {"bbfmm_graham_ratios", graham_ratios, MOST},
    {"bbfmm_write_block", write_block, MOST},
    {"bbfmm_block_size", block_size, MOST},
    {"bbfmm_read_block", read_block, MOST},
    {"bbfmm_argmax_masked", argmax, MOST},
    {"bbfmm_calculate_singular_values_cutoff", cutoff, MOST},
    {"bbfmm_aca_partial_pivoting, old mode", approximate_in_old_mode, MOST_CROSS},
    {"bbfmm_aca_partial_pivoting, restart", approximate_in_restart_mode, MOST_CROSS},
};

int main(void)
{
    make_stack();
    fill_gases();
    size_t largest = 0;
    size_t count = sizeof CALLS / sizeof CALLS[0];
    for (size_t i = 0; i < count; i++) {
        fill_block();
        size_t taken = stack_of(CALLS[i].call);
        printf("%-42s %5zu bytes of stack\n", CALLS[i].name, taken);
        if (taken > CALLS[i].most) {
            printf("%s: more than %zu\n", CALLS[i].name, CALLS[i].most);
            faults++;
        }
        largest = taken > largest ? taken : largest;
    }
    if (faults > 0) {
        printf("tests/stack: %zu faults\n", faults);
        return 1;
    }
    printf("tests/stack: %zu calls, none takes more than %zu bytes of a stack of %d\n", count, largest, STACK);
    return 0;
}
