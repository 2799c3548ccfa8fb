/* Operators and the tensor transfer: document 01's moves, operators that no operation rounds, and every refusal. */
#include "check.h"

/* With two nodes x0 and x1, each operator entry is 0.5 + x * c, for c a node of the child. */
static void test_operators(void)
{
    const double nodes[2] = {-0.5, 0.5};
    const double polynomials[4] = {1, 1, -0.5, 0.5};
    double operators[8];
    CHECK(bbfmm_get_m2m_transfer_operators(2, LEND(nodes), LEND(polynomials), LEND(operators)) == BBFMM_DONE);
    CHECK(HOLDS(operators, (double[]){0.875, 0.125, 0.625, 0.375, 0.375, 0.625, 0.125, 0.875}));

    FILL(operators);
    CHECK(bbfmm_get_m2m_transfer_operators(17, LEND(nodes), LEND(polynomials), LEND(operators)) == BBFMM_NO_ORDER);
    CHECK(bbfmm_get_m2m_transfer_operators(2, SHORT(nodes), LEND(polynomials), LEND(operators)) == BBFMM_WRONG_LENGTH);
    CHECK(bbfmm_get_m2m_transfer_operators(2, LEND(nodes), SHORT(polynomials), LEND(operators)) == BBFMM_WRONG_LENGTH);
    CHECK(bbfmm_get_m2m_transfer_operators(2, LEND(nodes), LEND(polynomials), SHORT(operators)) == BBFMM_WRONG_LENGTH);
    CHECK(KEPT(operators));
}

static void test_line(void)
{
    const double input[2] = {1, 10};
    const double operators[8] = {1, 2, 3, 4, 5, 6, 7, 8};
    double first[2];
    double second[2];
    CHECK(bbfmm_apply_cheb_tensor_transfer(1, 2, 0, false, LEND(input), LEND(operators), LEND(first), LEND(second)) == BBFMM_DONE);
    CHECK(HOLDS(first, input));
    CHECK(HOLDS(second, (double[]){31, 42}));
    CHECK(bbfmm_apply_cheb_tensor_transfer(1, 2, 0, true, LEND(input), LEND(operators), LEND(first), LEND(second)) == BBFMM_DONE);
    CHECK(HOLDS(second, (double[]){21, 43}));
    CHECK(bbfmm_apply_cheb_tensor_transfer(1, 2, 1, false, LEND(input), LEND(operators), LEND(first), LEND(second)) == BBFMM_DONE);
    CHECK(HOLDS(second, (double[]){75, 86}));
}

/* One node: axis 1 takes the lower operator, 2, and then axis 0 the upper, 3. */
static void test_square(void)
{
    const double input[1] = {5};
    const double operators[2] = {2, 3};
    double first[1];
    double second[1];
    CHECK(bbfmm_apply_cheb_tensor_transfer(2, 1, 1, false, LEND(input), LEND(operators), LEND(first), LEND(second)) == BBFMM_DONE);
    CHECK(first[0] == 30 && second[0] == 10);

    FILL(first);
    FILL(second);
    CHECK(bbfmm_apply_cheb_tensor_transfer(4, 1, 1, false, LEND(input), LEND(operators), LEND(first), LEND(second)) == BBFMM_NO_DIMENSION);
    CHECK(bbfmm_apply_cheb_tensor_transfer(2, 17, 1, false, LEND(input), LEND(operators), LEND(first), LEND(second)) == BBFMM_NO_ORDER);
    CHECK(bbfmm_apply_cheb_tensor_transfer(2, 1, 4, false, SHORT(input), LEND(operators), LEND(first), LEND(second)) == BBFMM_NO_CASE);
    CHECK(bbfmm_apply_cheb_tensor_transfer(2, 1, 1, false, SHORT(input), LEND(operators), LEND(first), LEND(second)) == BBFMM_WRONG_LENGTH);
    CHECK(bbfmm_apply_cheb_tensor_transfer(2, 1, 1, true, LEND(input), SHORT(operators), LEND(first), LEND(second)) == BBFMM_WRONG_LENGTH);
    CHECK(bbfmm_apply_cheb_tensor_transfer(2, 1, 1, true, LEND(input), LEND(operators), SHORT(first), LEND(second)) == BBFMM_WRONG_LENGTH);
    CHECK(bbfmm_apply_cheb_tensor_transfer(2, 1, 1, true, LEND(input), LEND(operators), LEND(first), SHORT(second)) == BBFMM_WRONG_LENGTH);
    CHECK(KEPT(first) && KEPT(second));
}

void test_transfer(void)
{
    test_operators();
    test_line();
    test_square();
}
