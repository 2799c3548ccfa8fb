/* Kind 3: the operators of an order, from nodes and the polynomials there. Kind 4: a block that is transferred; the case's rows are
   its child, and the flag says L2L. */
#include "replay.h"

static double input[4096];
static double operators[512];
static double first[4096];
static double second[4096];

static void put_operators(size_t order)
{
    double nodes[16];
    double polynomials[256];
    read_floats(nodes, up_to(16, order));
    read_floats(polynomials, square(order));
    uint8_t refusal =
        bbfmm_get_m2m_transfer_operators(order, nodes, up_to(16, order), polynomials, square(order), operators, 2 * square(order));
    printf("operators %zu:", order);
    put_answer(refusal, operators, 2 * square(order));
}

static void put_block(Case c)
{
    size_t count = block(c.dimension, c.order);
    read_floats(input, count);
    read_floats(operators, 2 * square(c.order));
    uint8_t refusal = bbfmm_apply_cheb_tensor_transfer(
        c.dimension, c.order, c.rows, c.flag, input, count, operators, 2 * square(c.order), first, count, second, count);
    printf("transfer %zu %zu %zu %s:", c.dimension, c.order, c.rows, c.flag ? "l2l" : "m2m");
    put_answer(refusal, c.dimension == 2 ? first : second, count);
}

void replay_transfer(Case c)
{
    if (c.kind == 3) {
        put_operators(c.order);
    } else {
        put_block(c);
    }
    printf("\n");
}
