/* Second derivatives at 0.5; and the curvature of four nodes an axis in a cell of length 4, where no operation rounds: on a line, in the
   plane and in space, with all that the call leaves. Then coordinates outside the cell, no points, and every refusal of both calls. */
#include "check.h"

enum { P = 4 };

/* T at the nodes: T_0 at every node, and T_1, T_2, T_3 at one node each. So node 0 has the sum T_0, and node k the sum T_0 + T_k. */
static const double POLYNOMIALS[P * P] = {1, 1, 1, 1, 0, 1, 0, 0, 0, 0, 1, 0, 0, 0, 0, 1};

static double points[1];
static double curvatures[P];
static double factors[P];
static double slopes[P];
static double bends[P];
static double room[3 * P];

/* The buffers of the curvature call, one of which may be lent with a wrong length. */
typedef enum {
    POLYNOMIALS_LENT, COORDINATES_LENT, CURVATURES_LENT, FACTORS_LENT, SLOPES_LENT, BENDS_LENT, ROOM_LENT, ALL_FIT
} Lent;

/* A call on a line in which everything fits, but for what is given. */
static uint8_t called(size_t dimension, size_t order, size_t rows, double length, Lent wrong)
{
    return bbfmm_get_curvature_coefficients(
        dimension, order, rows, length, POLYNOMIALS, P * P - (wrong == POLYNOMIALS_LENT), points, 1 - (wrong == COORDINATES_LENT),
        curvatures, P - (wrong == CURVATURES_LENT), factors, P - (wrong == FACTORS_LENT), slopes, P - (wrong == SLOPES_LENT), bends,
        P - (wrong == BENDS_LENT), room, 3 * P - (wrong == ROOM_LENT));
}

static bool all_kept(void)
{
    return KEPT(curvatures) && KEPT(factors) && KEPT(slopes) && KEPT(bends) && KEPT(room);
}

static void fill_all(void)
{
    FILL(curvatures);
    FILL(factors);
    FILL(slopes);
    FILL(bends);
    FILL(room);
}

/* SECOND DERIVATIVES: T_2 = 2x^2 - 1, T_3 = 4x^3 - 3x and T_4 = 8x^4 - 8x^2 + 1 have 4, 24x and 96x^2 - 16. */

static void test_second(void)
{
    const double half[1] = {0.5};
    double tn[5], dtn[5], ddtn[5];
    CHECK(bbfmm_evaluate_second_derivatives(5, 1, LEND(half), LEND(tn), LEND(dtn), LEND(ddtn)) == BBFMM_DONE);
    CHECK(HOLDS(tn, (double[]){1, 0.5, -0.5, -1, -0.5}));
    CHECK(HOLDS(dtn, (double[]){0, 1, 2, 0, -4}));
    CHECK(HOLDS(ddtn, (double[]){0, 0, 4, 12, 8}));

    /* Two points, a row each; then order 1, which has T_0 alone: what is not lent stays. */
    const double two[2] = {-1, 3};
    double t[6], d[6], dd[6];
    CHECK(bbfmm_evaluate_second_derivatives(3, 2, LEND(two), LEND(t), LEND(d), LEND(dd)) == BBFMM_DONE);
    CHECK(HOLDS(t, (double[]){1, 1, -1, 3, 1, 17}));
    CHECK(HOLDS(d, (double[]){0, 0, 1, 1, -4, 12}));
    CHECK(HOLDS(dd, (double[]){0, 0, 0, 0, 4, 4}));
    FILL(t);
    CHECK(bbfmm_evaluate_second_derivatives(1, 2, LEND(two), t, 2, d, 2, dd, 2) == BBFMM_DONE);
    CHECK(same(t, (double[]){1, 1}, 2 * sizeof(double)) && kept(t + 2, 4 * sizeof(double)));
    CHECK(HOLDS(d, (double[]){0, 0, 1, 1, -4, 12}) && HOLDS(dd, (double[]){0, 0, 0, 0, 4, 4}) && HOLDS(two, (double[]){-1, 3}));

    /* With derivatives the other call gives the same T and T'. Any float is taken. */
    const double none = 0;
    const double any[3] = {none / none, 1 / none, -0.3};
    double t3[9], d3[9], dd3[9], t2[9], d2[9];
    CHECK(bbfmm_evaluate_second_derivatives(3, 3, LEND(any), LEND(t3), LEND(d3), LEND(dd3)) == BBFMM_DONE);
    CHECK(bbfmm_evaluate_chebyshev_polynomials(3, 3, LEND(any), true, LEND(t2), LEND(d2)) == BBFMM_DONE);
    CHECK(t3[8] == t2[8] && d3[8] == d2[8] && t3[7] == 1 / none && d3[6] != d3[6] && dd3[8] == 4);
    CHECK(t3[3] != t3[3] && d3[3] == 1 && dd3[3] == 0);
    /* 4 + (2x)*0 - 0 is no number where x is none, or is infinite. */
    CHECK(dd3[6] != dd3[6] && dd3[7] != dd3[7]);
}

static void test_second_refusals(void)
{
    const double half[1] = {0.5};
    double tn[4], dtn[4], ddtn[4];
    FILL(tn);
    FILL(dtn);
    FILL(ddtn);
    CHECK(bbfmm_evaluate_second_derivatives(0, 4097, LEND(half), LEND(tn), LEND(dtn), LEND(ddtn)) == BBFMM_NO_ORDER);
    CHECK(bbfmm_evaluate_second_derivatives(17, 4097, SHORT(half), LEND(tn), LEND(dtn), LEND(ddtn)) == BBFMM_NO_ORDER);
    CHECK(bbfmm_evaluate_second_derivatives(4, 4097, SHORT(half), LEND(tn), LEND(dtn), LEND(ddtn)) == BBFMM_NO_COUNT);
    CHECK(bbfmm_evaluate_second_derivatives(4, 1, SHORT(half), LEND(tn), LEND(dtn), LEND(ddtn)) == BBFMM_WRONG_LENGTH);
    CHECK(bbfmm_evaluate_second_derivatives(4, 1, LEND(half), SHORT(tn), LEND(dtn), LEND(ddtn)) == BBFMM_WRONG_LENGTH);
    CHECK(bbfmm_evaluate_second_derivatives(4, 1, LEND(half), LEND(tn), SHORT(dtn), LEND(ddtn)) == BBFMM_WRONG_LENGTH);
    CHECK(bbfmm_evaluate_second_derivatives(4, 1, LEND(half), LEND(tn), LEND(dtn), SHORT(ddtn)) == BBFMM_WRONG_LENGTH);
    CHECK(bbfmm_evaluate_second_derivatives(4, 1, LEND(half), LEND(tn), dtn, 0, ddtn, 0) == BBFMM_WRONG_LENGTH);
    CHECK(KEPT(tn) && KEPT(dtn) && KEPT(ddtn) && HOLDS(half, (double[]){0.5}));
    CHECK(bbfmm_evaluate_second_derivatives(4, 0, half, 0, tn, 0, dtn, 0, ddtn, 0) == BBFMM_DONE);
    CHECK(KEPT(tn) && KEPT(dtn) && KEPT(ddtn));
}

/* CURVATURE on a line, at 0.5, where T is 1, 0.5, -0.5, -1, T' is 0, 1, 2, 0 and T'' is 0, 0, 4, 12. 2/p and 2/length are 0.5. */

static void test_line(void)
{
    fill_all();
    points[0] = 0.5;
    CHECK(called(1, P, 1, 4, ALL_FIT) == BBFMM_DONE);
    CHECK(HOLDS(points, (double[]){0.5}));
    CHECK(HOLDS(factors, (double[]){0.25, 0.5, 0, -0.25}));
    CHECK(HOLDS(slopes, (double[]){0, 0.25, 0.5, 0}));
    CHECK(HOLDS(bends, (double[]){0, 0, 0.5, 1.5}));
    CHECK(HOLDS(curvatures, (double[]){0, 0, 0.5, 1.5}));
    CHECK(HOLDS(room, (double[]){1, 0.5, -0.5, -1, 0, 1, 2, 0, 0, 0, 4, 12}));

    /* A cell half as long has twice the slopes and four times the curvature. */
    CHECK(called(1, P, 1, 2, ALL_FIT) == BBFMM_DONE);
    CHECK(HOLDS(factors, (double[]){0.25, 0.5, 0, -0.25}));
    CHECK(HOLDS(slopes, (double[]){0, 0.5, 1, 0}) && HOLDS(curvatures, (double[]){0, 0, 2, 6}));

    /* Outside the cell the polynomials go on: at 3, T'' is 0, 0, 4, 72. */
    points[0] = 3;
    CHECK(called(1, P, 1, 4, ALL_FIT) == BBFMM_DONE);
    CHECK(HOLDS(curvatures, (double[]){0, 0, 0.5, 9}) && HOLDS(points, (double[]){3}));
    points[0] = 1e308;
    CHECK(called(1, P, 1, 4, ALL_FIT) == BBFMM_DONE && HOLDS(points, (double[]){1e308}));

    fill_all();
    CHECK(bbfmm_get_curvature_coefficients(1, P, 0, 4, LEND(POLYNOMIALS), points, 0, curvatures, 0, factors, 0, slopes, 0, bends, 0,
        room, 0) == BBFMM_DONE);
    CHECK(all_kept());
}

/* At (0.5, 1), where on axis 1 S is 0.25, 0.75, 0.75, 0.75, S' is 0, 0.25, 1, 2.25 and S'' is 0, 0, 0.5, 3. Then at (0.5, 1, -0.5), where
   on axis 2 S is 0.25, 0, 0, 0.75, S' is 0, 0.25, -0.5, 0 and S'' is 0, 0, 0.5, -1.5. */

static void test_plane(void)
{
    enum { N = P * P };
    const double place[2] = {0.5, 1};
    static double all[3 * N], s[2 * P], d[2 * P], dd[2 * P], work[3 * P];
    CHECK(bbfmm_get_curvature_coefficients(2, P, 1, 4, LEND(POLYNOMIALS), LEND(place), LEND(all), LEND(s), LEND(d), LEND(dd), LEND(work))
        == BBFMM_DONE);
    CHECK(HOLDS(s, (double[]){0.25, 0.5, 0, -0.25, 0.25, 0.75, 0.75, 0.75}));
    CHECK(HOLDS(d, (double[]){0, 0.25, 0.5, 0, 0, 0.25, 1, 2.25}));
    CHECK(HOLDS(dd, (double[]){0, 0, 0.5, 1.5, 0, 0, 0.5, 3}));
    CHECK(HOLDS(work, (double[]){1, 1, 1, 1, 0, 1, 4, 9, 0, 0, 4, 24}));
    /* Nodes (2, 3), (3, 2) and (1, 3), along the pairs (0, 0), (0, 1) and (1, 1). */
    CHECK(all[11] == 0.375 && all[N + 11] == 1.125 && all[2 * N + 11] == 0);
    CHECK(all[14] == 1.125 && all[N + 14] == 0 && all[2 * N + 14] == -0.125);
    CHECK(all[7] == 0 && all[N + 7] == 0.5625 && all[2 * N + 7] == 1.5);
}

static void test_space(void)
{
    enum { N = P * P * P };
    const double place[3] = {0.5, 1, -0.5};
    static double all[6 * N], s[3 * P], d[3 * P], dd[3 * P], work[3 * P];
    CHECK(bbfmm_get_curvature_coefficients(3, P, 1, 4, LEND(POLYNOMIALS), LEND(place), LEND(all), LEND(s), LEND(d), LEND(dd), LEND(work))
        == BBFMM_DONE);
    CHECK(same(s + 2 * P, (double[]){0.25, 0, 0, 0.75}, P * sizeof(double)));
    CHECK(same(d + 2 * P, (double[]){0, 0.25, -0.5, 0}, P * sizeof(double)));
    CHECK(same(dd + 2 * P, (double[]){0, 0, 0.5, -1.5}, P * sizeof(double)));
    CHECK(HOLDS(work, (double[]){1, -0.5, -0.5, 1, 0, 1, -2, 0, 0, 0, 4, -12}));
    /* Nodes (2, 3, 3), (1, 2, 2) and (3, 2, 3), along the six pairs: (0,0), (0,1), (0,2), (1,1), (1,2), (2,2). */
    static const size_t nodes[3] = {47, 26, 59};
    static const double wanted[3][6] = {{0.28125, 0.84375, 0, 0, 0, 0}, {0, 0, -0.09375, 0, -0.25, 0.1875},
        {0.84375, 0, 0, -0.09375, 0, 0.28125}};
    for (size_t k = 0; k < 3 * 6; k++) {
        CHECK(all[k % 6 * N + nodes[k / 6]] == wanted[k / 6][k % 6]);
    }
}

/* Three points in the plane: a row each, and the first of them as above. */
static void test_rows(void)
{
    enum { N = P * P, ROWS = 3 };
    const double places[2 * ROWS] = {0.5, 0, -1, 1, 0.25, 0.5};
    static double all[3 * N * ROWS], s[2 * P * ROWS], d[2 * P * ROWS], dd[2 * P * ROWS], work[3 * P * ROWS];
    CHECK(bbfmm_get_curvature_coefficients(
        2, P, ROWS, 4, LEND(POLYNOMIALS), LEND(places), LEND(all), LEND(s), LEND(d), LEND(dd), LEND(work)) == BBFMM_DONE);
    CHECK(all[11 * ROWS] == 0.375 && all[(N + 11) * ROWS] == 1.125 && all[(2 * N + 14) * ROWS] == -0.125);
    /* On axis 0 at -1, T'' is 0, 0, 4, -24; on axis 1 at 0.5, S is 0.25, 0.5, 0, -0.25. Node (3, 1). */
    CHECK(dd[3 * ROWS + 2] == -3 && all[13 * ROWS + 2] == -1.5);
    CHECK(work[ROWS] == 1 && work[ROWS + 1] == 0.25 && work[ROWS + 2] == 0.5);
}

/* REFUSALS */

static void test_refusals(void)
{
    const double infinite = 1e308 * 10;
    fill_all();
    points[0] = infinite;
    CHECK(called(0, 17, 4097, 0, ROOM_LENT) == BBFMM_NO_DIMENSION);
    CHECK(called(4, P, 1, 4, ALL_FIT) == BBFMM_NO_DIMENSION);
    CHECK(called(1, 0, 4097, 0, ROOM_LENT) == BBFMM_NO_ORDER);
    CHECK(called(1, 17, 1, 4, ALL_FIT) == BBFMM_NO_ORDER);
    CHECK(called(1, P, 4097, 0, ROOM_LENT) == BBFMM_NO_COUNT);
    for (Lent wrong = POLYNOMIALS_LENT; wrong < ALL_FIT; wrong++) {
        CHECK(called(1, P, 1, 0, wrong) == BBFMM_WRONG_LENGTH);
    }
    CHECK(called(2, P, 1, 4, ALL_FIT) == BBFMM_WRONG_LENGTH);
    const double none = 0;
    const double lengths[6] = {0, -4, infinite, none / none, 0x1.fffffffffffffp-21, 0x1.0000000000001p30};
    for (size_t k = 0; k < 6; k++) {
        CHECK(called(1, P, 1, lengths[k], ALL_FIT) == BBFMM_NO_CELL);
    }
    const double list[3] = {infinite, -infinite, none / none};
    for (size_t k = 0; k < 3; k++) {
        points[0] = list[k];
        CHECK(called(1, P, 1, 4, ALL_FIT) == BBFMM_NOT_FINITE && HOLDS(points, &list[k]));
    }
    CHECK(all_kept());
    points[0] = 0.5;
    CHECK(called(1, P, 1, 0x1p-20, ALL_FIT) == BBFMM_DONE && curvatures[2] == 0x1p43);
    CHECK(called(1, P, 1, 0x1p30, ALL_FIT) == BBFMM_DONE && curvatures[2] == 0x1p-57);
}

void test_curvature(void)
{
    test_second();
    test_second_refusals();
    test_line();
    test_plane();
    test_space();
    test_rows();
    test_refusals();
}
