/* The operators between a block and its children, and the tensor transfer. */
#include "walk.h"

BUFFER(nodes, double, 40, 7);
BUFFER(polynomials, double, 300, 7);
BUFFER(operators, double, 600, 7);
BUFFER(input, double, 4100, 7);
BUFFER(left, double, 4100, 7);
BUFFER(right, double, 4100, 7);

static size_t pair(size_t order)
{
    return product(product(2, order), order);
}

/* Six orders, four lengths for each of three buffers. */
static Outcome get_m2m_transfer_operators(size_t k)
{
    size_t order = order_at(take(&k, 6));
    bool fits = lend(&nodes, order, take(&k, 4));
    fits = lend(&polynomials, product(order, order), take(&k, 4)) && fits;
    fits = lend(&operators, pair(order), k) && fits;
    uint8_t expected = first(of_order(order), unless(fits, BBFMM_WRONG_LENGTH));
    uint8_t number = bbfmm_get_m2m_transfer_operators(order, LENT(nodes), LENT(polynomials), LENT(operators));
    return (Outcome){expected, number, false};
}

static size_t child_at(size_t k)
{
    return (size_t[]){0, 1, 2, 3, 4, 7, 8, (size_t)-1}[k];
}

/* Six dimensions, six orders, eight children, both ways, four lengths for each of four buffers. */
static Outcome apply_cheb_tensor_transfer(size_t k)
{
    size_t dimension = dimension_at(take(&k, 6));
    size_t order = order_at(take(&k, 6));
    size_t child = child_at(take(&k, 8));
    bool transpose = take(&k, 2) == 1;
    size_t exact = power(dimension, order);
    bool fits = lend(&input, exact, take(&k, 4));
    fits = lend(&operators, pair(order), take(&k, 4)) && fits;
    fits = lend(&left, exact, take(&k, 4)) && fits;
    fits = lend(&right, exact, k) && fits;
    uint8_t expected = of_shape(dimension, order);
    if (expected == 0) {
        expected = first(unless(child < (size_t)1 << dimension, BBFMM_NO_CASE), unless(fits, BBFMM_WRONG_LENGTH));
    }
    uint8_t number = bbfmm_apply_cheb_tensor_transfer(
        dimension, order, child, transpose, LENT(input), LENT(operators), LENT(left), LENT(right));
    return (Outcome){expected, number, false};
}

void walk_transfer(void)
{
    Buffer *const of_operators[] = {&nodes, &polynomials, &operators};
    Buffer *const of_blocks[] = {&input, &operators, &left, &right};
    WALK("get_m2m_transfer_operators", 6 * 4 * 4 * 4, get_m2m_transfer_operators, of_operators);
    WALK("apply_cheb_tensor_transfer", 6 * 6 * 8 * 2 * 4 * 4 * 4 * 4, apply_cheb_tensor_transfer, of_blocks);
}
