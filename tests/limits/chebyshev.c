/* Nodes and polynomials. */
#include "walk.h"

BUFFER(nodes, double, 40, 7);
BUFFER(points, double, 4100, 7);
BUFFER(tn, double, 4100, 7);
BUFFER(dtn, double, 4100, 7);
BUFFER(ddtn, double, 4100, 7);

/* Six orders, four lengths. */
static Outcome generate_chebyshev_nodes(size_t k)
{
    size_t order = order_at(take(&k, 6));
    bool fits = lend(&nodes, order, k);
    uint8_t expected = first(of_order(order), unless(fits, BBFMM_WRONG_LENGTH));
    return (Outcome){expected, bbfmm_generate_chebyshev_nodes(order, LENT(nodes)), false};
}

/* Six orders, four sets, four lengths. */
static Outcome generate_node_set(size_t k)
{
    static const size_t sets[4] = {0, 1, 2, (size_t)-1};
    size_t order = order_at(take(&k, 6));
    size_t set = sets[take(&k, 4)];
    bool fits = lend(&nodes, order, k);
    uint8_t expected = first(of_order(order), first(unless(fits, BBFMM_WRONG_LENGTH), unless(set < 2, BBFMM_NO_SET)));
    return (Outcome){expected, bbfmm_generate_node_set(order, set, LENT(nodes)), false};
}

/* Six orders, six counts of points, with derivatives or without, four lengths for each of three buffers. */
static Outcome evaluate_chebyshev_polynomials(size_t k)
{
    size_t order = order_at(take(&k, 6));
    size_t rows = rows_at(take(&k, 6));
    bool with_derivatives = take(&k, 2) == 1;
    size_t exact = product(order, rows);
    bool fits = lend(&points, rows, take(&k, 4));
    fits = lend(&tn, exact, take(&k, 4)) && fits;
    fits = lend(&dtn, with_derivatives ? exact : 0, k) && fits;
    uint8_t expected = first(of_order(order), first(unless(rows <= 4096, BBFMM_NO_COUNT), unless(fits, BBFMM_WRONG_LENGTH)));
    uint8_t number = bbfmm_evaluate_chebyshev_polynomials(order, rows, LENT(points), with_derivatives, LENT(tn), LENT(dtn));
    return (Outcome){expected, number, false};
}

/* Six orders, six counts of points, four lengths for each of four buffers. */
static Outcome evaluate_second_derivatives(size_t k)
{
    size_t order = order_at(take(&k, 6));
    size_t rows = rows_at(take(&k, 6));
    size_t exact = product(order, rows);
    bool fits = lend(&points, rows, take(&k, 4));
    fits = lend(&tn, exact, take(&k, 4)) && fits;
    fits = lend(&dtn, exact, take(&k, 4)) && fits;
    fits = lend(&ddtn, exact, k) && fits;
    uint8_t expected = first(of_order(order), first(unless(rows <= 4096, BBFMM_NO_COUNT), unless(fits, BBFMM_WRONG_LENGTH)));
    uint8_t number = bbfmm_evaluate_second_derivatives(order, rows, LENT(points), LENT(tn), LENT(dtn), LENT(ddtn));
    return (Outcome){expected, number, !is_kept(&points, points.length)};
}

void walk_chebyshev(void)
{
    Buffer *const of_nodes[] = {&nodes};
    Buffer *const of_polynomials[] = {&points, &tn, &dtn};
    Buffer *const of_second_derivatives[] = {&points, &tn, &dtn, &ddtn};
    WALK("generate_chebyshev_nodes", 6 * 4, generate_chebyshev_nodes, of_nodes);
    WALK("generate_node_set", 6 * 4 * 4, generate_node_set, of_nodes);
    WALK("evaluate_chebyshev_polynomials", 6 * 6 * 2 * 4 * 4 * 4, evaluate_chebyshev_polynomials, of_polynomials);
    WALK("evaluate_second_derivatives", 6 * 6 * 4 * 4 * 4 * 4, evaluate_second_derivatives, of_second_derivatives);
}
