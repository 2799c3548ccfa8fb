/* Target and source points of a square block of length 4 with two nodes an axis, and every refusal. */
#include "check.h"

static const double NODES[2] = {-0.5, 0.5};

static void test_targets(void)
{
    double points[8];
    CHECK(bbfmm_generate_chebyshev_target_points(2, 2, 4, LEND(NODES), LEND(points)) == BBFMM_DONE);
    CHECK(HOLDS(points, (double[]){-1, -1, 1, 1, -1, 1, -1, 1}));

    FILL(points);
    CHECK(bbfmm_generate_chebyshev_target_points(0, 2, 4, LEND(NODES), LEND(points)) == BBFMM_NO_DIMENSION);
    CHECK(bbfmm_generate_chebyshev_target_points(2, 17, 4, LEND(NODES), LEND(points)) == BBFMM_NO_ORDER);
    CHECK(bbfmm_generate_chebyshev_target_points(2, 2, 0, SHORT(NODES), LEND(points)) == BBFMM_WRONG_LENGTH);
    CHECK(bbfmm_generate_chebyshev_target_points(2, 2, 0, LEND(NODES), SHORT(points)) == BBFMM_WRONG_LENGTH);
    CHECK(bbfmm_generate_chebyshev_target_points(2, 2, 0, LEND(NODES), LEND(points)) == BBFMM_NO_CELL);
    CHECK(KEPT(points));
}

/* Reference vector 1 of the plane is (2, 1). */
static void test_sources(void)
{
    double points[8];
    CHECK(bbfmm_generate_chebyshev_source_points(2, 2, 4, 1, LEND(NODES), LEND(points)) == BBFMM_DONE);
    CHECK(HOLDS(points, (double[]){7, 7, 9, 9, 3, 5, 3, 5}));

    FILL(points);
    CHECK(bbfmm_generate_chebyshev_source_points(4, 2, 4, 1, LEND(NODES), LEND(points)) == BBFMM_NO_DIMENSION);
    CHECK(bbfmm_generate_chebyshev_source_points(2, 0, 4, 1, LEND(NODES), LEND(points)) == BBFMM_NO_ORDER);
    CHECK(bbfmm_generate_chebyshev_source_points(2, 2, 4, 7, SHORT(NODES), LEND(points)) == BBFMM_NO_CASE);
    CHECK(bbfmm_generate_chebyshev_source_points(2, 2, 0, 6, LEND(NODES), SHORT(points)) == BBFMM_WRONG_LENGTH);
    CHECK(bbfmm_generate_chebyshev_source_points(2, 2, 1073741825, 6, LEND(NODES), LEND(points)) == BBFMM_NO_CELL);
    CHECK(KEPT(points));
}

void test_points(void)
{
    test_targets();
    test_sources();
}
