/* Nodes and polynomials: document 01's values at 0.5, the table's nodes, both sets, and every refusal. */
#include "check.h"

static void test_nodes(void)
{
    double nodes[4];
    CHECK(bbfmm_generate_chebyshev_nodes(4, LEND(nodes)) == BBFMM_DONE);
    CHECK(HOLDS(nodes, (double[]){-0.9238795325112867, -0.3826834323650897, 0.38268343236508984, 0.9238795325112867}));

    FILL(nodes);
    CHECK(bbfmm_generate_chebyshev_nodes(0, LEND(nodes)) == BBFMM_NO_ORDER);
    CHECK(bbfmm_generate_chebyshev_nodes(17, LEND(nodes)) == BBFMM_NO_ORDER);
    CHECK(bbfmm_generate_chebyshev_nodes(4, SHORT(nodes)) == BBFMM_WRONG_LENGTH);
    CHECK(KEPT(nodes));
}

static void test_sets(void)
{
    double nodes[3];
    CHECK(bbfmm_generate_node_set(3, BBFMM_SET_RUST, LEND(nodes)) == BBFMM_DONE);
    CHECK(HOLDS(nodes, (double[]){-0.8660254037844387, 6.123233995736766e-17, 0.8660254037844387}));
    CHECK(bbfmm_generate_node_set(3, BBFMM_SET_MIRROR_EXACT, LEND(nodes)) == BBFMM_DONE);
    CHECK(HOLDS(nodes, (double[]){-0.8660254037844387, 0.0, 0.8660254037844387}));
    double pair[2];
    CHECK(bbfmm_generate_node_set(2, BBFMM_SET_MIRROR_EXACT, LEND(pair)) == BBFMM_DONE);
    CHECK(HOLDS(pair, (double[]){-0.7071067811865476, 0.7071067811865476}));

    FILL(nodes);
    CHECK(bbfmm_generate_node_set(0, 2, SHORT(nodes)) == BBFMM_NO_ORDER);
    CHECK(bbfmm_generate_node_set(17, 2, SHORT(nodes)) == BBFMM_NO_ORDER);
    CHECK(bbfmm_generate_node_set(3, 2, SHORT(nodes)) == BBFMM_WRONG_LENGTH);
    CHECK(bbfmm_generate_node_set(3, 1, SHORT(nodes)) == BBFMM_WRONG_LENGTH);
    CHECK(bbfmm_generate_node_set(3, 2, LEND(nodes)) == BBFMM_NO_SET);
    CHECK(bbfmm_generate_node_set(3, (size_t)-1, LEND(nodes)) == BBFMM_NO_SET);
    CHECK(KEPT(nodes));
}

static void test_polynomials(void)
{
    const double points[1] = {0.5};
    double tn[4];
    double dtn[4];
    CHECK(bbfmm_evaluate_chebyshev_polynomials(4, 1, LEND(points), true, LEND(tn), LEND(dtn)) == BBFMM_DONE);
    CHECK(HOLDS(tn, (double[]){1, 0.5, -0.5, -1}));
    CHECK(HOLDS(dtn, (double[]){0, 1, 2, 0}));

    FILL(tn);
    FILL(dtn);
    CHECK(bbfmm_evaluate_chebyshev_polynomials(4, 1, LEND(points), false, LEND(tn), dtn, 0) == BBFMM_DONE);
    CHECK(HOLDS(tn, (double[]){1, 0.5, -0.5, -1}));
    CHECK(KEPT(dtn));

    FILL(tn);
    CHECK(bbfmm_evaluate_chebyshev_polynomials(17, 4097, LEND(points), true, LEND(tn), LEND(dtn)) == BBFMM_NO_ORDER);
    CHECK(bbfmm_evaluate_chebyshev_polynomials(4, 4097, LEND(points), true, LEND(tn), LEND(dtn)) == BBFMM_NO_COUNT);
    CHECK(bbfmm_evaluate_chebyshev_polynomials(4, 1, SHORT(points), true, LEND(tn), LEND(dtn)) == BBFMM_WRONG_LENGTH);
    CHECK(bbfmm_evaluate_chebyshev_polynomials(4, 1, LEND(points), true, SHORT(tn), LEND(dtn)) == BBFMM_WRONG_LENGTH);
    CHECK(bbfmm_evaluate_chebyshev_polynomials(4, 1, LEND(points), false, LEND(tn), LEND(dtn)) == BBFMM_WRONG_LENGTH);
    CHECK(KEPT(tn) && KEPT(dtn));
}

void test_chebyshev(void)
{
    test_nodes();
    test_sets();
    test_polynomials();
}
