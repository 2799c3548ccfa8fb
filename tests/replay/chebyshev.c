/* Kind 1: the nodes of an order. Kind 2: the polynomials at some points and, where the flag is set, their derivatives. */
#include "replay.h"

static double points[4096];
static double tn[65536];
static double dtn[65536];

static void put_nodes(size_t order)
{
    double nodes[16];
    size_t count = up_to(16, order);
    uint8_t refusal = bbfmm_generate_chebyshev_nodes(order, nodes, count);
    printf("nodes %zu:", order);
    put_answer(refusal, nodes, count);
}

static void put_polynomials(Case c)
{
    size_t rows = up_to(4096, c.rows);
    size_t count = up_to(16, c.order) * rows;
    size_t derived = c.flag ? count : 0;
    read_floats(points, rows);
    uint8_t refusal = bbfmm_evaluate_chebyshev_polynomials(c.order, c.rows, points, rows, c.flag, tn, count, dtn, derived);
    printf("polynomials %zu %zu:", c.order, c.rows);
    put_answer(refusal, tn, count);
    if (c.flag) {
        printf(" |");
        put_answer(refusal, dtn, derived);
    }
}

void replay_chebyshev(Case c)
{
    if (c.kind == 1) {
        put_nodes(c.order);
    } else {
        put_polynomials(c);
    }
    printf("\n");
}
