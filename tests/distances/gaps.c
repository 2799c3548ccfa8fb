/* The pieces one after the other: nodes, a block of distances between a reference block and the block about the origin, its cross
   approximation, and how far the product of the factors is from the block. Prints a table. */
#include "bbfmm.h"

int printf(const char *format, ...);

enum { MOST = 512 };
static double nodes[16], sources[3 * MOST], targets[3 * MOST], block[MOST * MOST];
static double u[MOST * MOST], v[MOST * MOST], row[MOST], column[MOST];
static uint16_t row_list[MOST], column_list[MOST];

static const double EPSILON = 1e-6;

typedef struct {
    size_t rank, stop;
    double largest, gap;
} Found;

/* A NaN counts as greater than any number, so that none is hidden. */
static double greater(double left, double right)
{
    return left != left || left >= right ? left : right;
}

/* The sums have a term a column of the factors, in rising order. */
static Found compare(size_t count, const size_t *counts)
{
    Found found = {counts[0], counts[1], 0, 0};
    for (size_t target = 0; target < count; target++) {
        for (size_t source = 0; source < count; source++) {
            double sum = 0;
            for (size_t k = 0; k < found.rank; k++) {
                sum += u[source + k * count] * v[target + k * count];
            }
            double entry = block[source + target * count];
            found.gap = greater(found.gap, sum < entry ? entry - sum : sum - entry);
            found.largest = greater(found.largest, entry);
        }
    }
    return found;
}

/* Answers whether all three calls were done. */
static bool run(size_t dimension, size_t order, size_t reference, size_t count, Found *found)
{
    size_t counts[3];
    double numbers[2];
    size_t points = count * dimension;
    size_t all = count * count;
    if (bbfmm_generate_chebyshev_nodes(order, nodes, order) != BBFMM_DONE) {
        return false;
    }
    if (bbfmm_sample_distances(
            dimension, order, 1, reference, nodes, order, sources, points, targets, points, block, all) != BBFMM_DONE) {
        return false;
    }
    if (bbfmm_aca_partial_pivoting(
            count, count, block, all, EPSILON, false, u, all, v, all, row_list, count, column_list, count, row, count, column,
            count, counts, 3, numbers, 2) != BBFMM_DONE) {
        return false;
    }
    *found = compare(count, counts);
    return true;
}

static void print_vector(size_t dimension, const int32_t *vector)
{
    for (size_t a = 0; a < dimension; a++) {
        printf("%s%d", a == 0 ? "(" : ", ", (int)vector[a]);
    }
    printf(")");
}

int main(void)
{
    static const size_t ORDERS[2] = {4, 8};
    int32_t vector[3];
    printf("| dimension | reference | order | N | rank | stop | largest distance | largest gap | relative gap |\n");
    printf("|---|---|---|---|---|---|---|---|---|\n");
    for (size_t dimension = 1; dimension <= 3; dimension++) {
        for (size_t reference = 0; bbfmm_reference_vector(dimension, reference, vector, 3) == BBFMM_DONE; reference++) {
            for (size_t k = 0; k < 2; k++) {
                size_t order = ORDERS[k];
                size_t count = order * (dimension > 1 ? order : 1) * (dimension > 2 ? order : 1);
                Found found;
                if (!run(dimension, order, reference, count, &found)) {
                    printf("refused\n");
                    return 1;
                }
                printf("| %zu | ", dimension);
                print_vector(dimension, vector);
                printf(" | %zu | %zu | %zu | %zu | %.3g | %.1e | %.1e |\n", order, count, found.rank, found.stop, found.largest,
                    found.gap, found.gap / found.largest);
            }
        }
    }
    return 0;
}
