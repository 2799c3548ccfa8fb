/* Points of a cell of length 4 about 1, on a line with two nodes, where no operation rounds: scaled; what each node counts for there;
   the two calls in turn. Then the border of the cell, coordinates outside it, and every refusal of both calls. */
#include "check.h"

static const double CENTRE[1] = {1};
static const double POLYNOMIALS[4] = {1, 1, -0.5, 0.5};
static double points[1];
static double values[2];
static double gradients[2];
static double factors[2];
static double slopes[2];

/* The buffers of the second call, one of which may be lent with a wrong length. */
typedef enum { POLYNOMIALS_LENT, COORDINATES_LENT, VALUES_LENT, GRADIENTS_LENT, FACTORS_LENT, SLOPES_LENT, ALL_FIT } Lent;

/* One entry short, or one long where there should be none. */
static size_t length_of(size_t exact, bool is_wrong)
{
    return is_wrong ? (exact > 0 ? exact - 1 : 1) : exact;
}

/* A call in which everything fits, but for what is given. */
static uint8_t called(size_t dimension, size_t order, size_t rows, bool with_gradients, double length, Lent wrong)
{
    size_t more = with_gradients ? 2 : 0;
    return bbfmm_get_approximation_coefficients(
        dimension, order, rows, with_gradients, length, POLYNOMIALS, length_of(4, wrong == POLYNOMIALS_LENT), points,
        length_of(1, wrong == COORDINATES_LENT), values, length_of(2, wrong == VALUES_LENT), gradients,
        length_of(more, wrong == GRADIENTS_LENT), factors, length_of(2, wrong == FACTORS_LENT), slopes,
        length_of(more, wrong == SLOPES_LENT));
}

static bool all_kept(void)
{
    return KEPT(values) && KEPT(gradients) && KEPT(factors) && KEPT(slopes);
}

static void fill_all(void)
{
    FILL(values);
    FILL(gradients);
    FILL(factors);
    FILL(slopes);
}

static void test_scaling(void)
{
    points[0] = 2;
    CHECK(bbfmm_scale_points(1, 1, 4, LEND(CENTRE), LEND(points)) == BBFMM_DONE);
    CHECK(HOLDS(points, (double[]){0.5}) && CENTRE[0] == 1);

    /* Three points, column by column, each axis about its own centre; both faces of the cell are in it. */
    const double centre[3] = {1, -2, 0.5};
    double three[9] = {-1, 1, 3, -4, -1, 0, 0.5, 1, 2.5};
    CHECK(bbfmm_scale_points(3, 3, 4, LEND(centre), LEND(three)) == BBFMM_DONE);
    CHECK(HOLDS(three, (double[]){-1, 0, 1, -1, 0.5, 1, 0, 0.25, 1}));
    CHECK(HOLDS(centre, (double[]){1, -2, 0.5}));

    /* No points are all in the cell. */
    points[0] = 6000;
    CHECK(bbfmm_scale_points(1, 0, 4, LEND(CENTRE), points, 0) == BBFMM_DONE);
    CHECK(HOLDS(points, (double[]){6000}));
}

static void test_values(void)
{
    fill_all();
    points[0] = 0.5;
    CHECK(called(1, 2, 1, true, 4, ALL_FIT) == BBFMM_DONE);
    CHECK(HOLDS(points, (double[]){0.5}));
    CHECK(HOLDS(values, (double[]){0.25, 0.75}));
    CHECK(HOLDS(gradients, (double[]){-0.25, 0.25}));
    CHECK(HOLDS(factors, (double[]){0.25, 0.75}));
    CHECK(HOLDS(slopes, (double[]){-0.25, 0.25}));

    fill_all();
    CHECK(called(1, 2, 1, false, 4, ALL_FIT) == BBFMM_DONE);
    CHECK(HOLDS(points, (double[]){0.5}));
    CHECK(HOLDS(values, (double[]){0.25, 0.75}));
    CHECK(HOLDS(factors, (double[]){0.25, 0.75}));
    CHECK(KEPT(gradients) && KEPT(slopes));

    /* A shorter cell has steeper slopes, and the same values. */
    CHECK(called(1, 2, 1, true, 0.5, ALL_FIT) == BBFMM_DONE);
    CHECK(HOLDS(values, (double[]){0.25, 0.75}) && HOLDS(gradients, (double[]){-2, 2}));

    fill_all();
    CHECK(bbfmm_get_approximation_coefficients(
        1, 2, 0, true, 4, LEND(POLYNOMIALS), points, 0, values, 0, gradients, 0, factors, 0, slopes, 0) == BBFMM_DONE);
    CHECK(HOLDS(points, (double[]){0.5}) && all_kept());
}

/* The pair gives what one call gave before: one scaling, then values, then gradients. */
static void test_pair(void)
{
    fill_all();
    points[0] = 2;
    CHECK(bbfmm_scale_points(1, 1, 4, LEND(CENTRE), LEND(points)) == BBFMM_DONE);
    CHECK(called(1, 2, 1, false, 4, ALL_FIT) == BBFMM_DONE);
    CHECK(HOLDS(points, (double[]){0.5}));
    CHECK(HOLDS(values, (double[]){0.25, 0.75}));
    CHECK(HOLDS(factors, (double[]){0.25, 0.75}));
    CHECK(KEPT(gradients) && KEPT(slopes));

    CHECK(called(1, 2, 1, true, 4, ALL_FIT) == BBFMM_DONE);
    CHECK(HOLDS(points, (double[]){0.5}));
    CHECK(HOLDS(values, (double[]){0.25, 0.75}));
    CHECK(HOLDS(gradients, (double[]){-0.25, 0.25}));
    CHECK(HOLDS(factors, (double[]){0.25, 0.75}));
    CHECK(HOLDS(slopes, (double[]){-0.25, 0.25}));
}

/* In three dimensions, where most operations round: points are scaled by the rule; values and factors are the same bits with gradients
   and without; and the coordinates serve twice. */
enum { CLOUD = 5, NODES = 27, AXES = 9 };

static void test_twice(void)
{
    static const double centre[3] = {0.1, 0.2, 0.3};
    static double cloud[3 * CLOUD], scaled_cloud[3 * CLOUD], nodes[3], at_nodes[9];
    static double alone[NODES * CLOUD], with[NODES * CLOUD], steep[3 * NODES * CLOUD];
    static double shares[AXES * CLOUD], shares_with[AXES * CLOUD], steep_shares[AXES * CLOUD];
    CHECK(bbfmm_generate_chebyshev_nodes(3, LEND(nodes)) == BBFMM_DONE);
    CHECK(bbfmm_evaluate_chebyshev_polynomials(3, 3, LEND(nodes), false, LEND(at_nodes), steep, 0) == BBFMM_DONE);
    for (size_t i = 0; i < 3 * CLOUD; i++) {
        cloud[i] = centre[i / CLOUD] + ((double)i - 7) / 23;
        scaled_cloud[i] = (cloud[i] - centre[i / CLOUD]) / (0.7 * 0.5);
    }
    CHECK(bbfmm_scale_points(3, CLOUD, 0.7, LEND(centre), LEND(cloud)) == BBFMM_DONE);
    CHECK(HOLDS(cloud, scaled_cloud));
    CHECK(bbfmm_get_approximation_coefficients(
        3, 3, CLOUD, false, 0.7, LEND(at_nodes), LEND(cloud), LEND(alone), steep, 0, LEND(shares), steep_shares, 0) == BBFMM_DONE);
    CHECK(HOLDS(cloud, scaled_cloud));
    CHECK(bbfmm_get_approximation_coefficients(
        3, 3, CLOUD, true, 0.7, LEND(at_nodes), LEND(cloud), LEND(with), LEND(steep), LEND(shares_with), LEND(steep_shares))
        == BBFMM_DONE);
    CHECK(HOLDS(cloud, scaled_cloud));
    CHECK(HOLDS(alone, with) && HOLDS(shares, shares_with));
}

/* The second call does not ask where the cell ends. */
static void test_far_coordinates(void)
{
    points[0] = 3;
    CHECK(called(1, 2, 1, true, 4, ALL_FIT) == BBFMM_DONE);
    CHECK(HOLDS(values, (double[]){-1, 2}) && HOLDS(gradients, (double[]){-0.25, 0.25}));
    points[0] = -6000;
    CHECK(called(1, 2, 1, false, 4, ALL_FIT) == BBFMM_DONE);
    CHECK(HOLDS(values, (double[]){3000.5, -2999.5}) && HOLDS(points, (double[]){-6000}));
    points[0] = 1e308;
    CHECK(called(1, 2, 1, true, 4, ALL_FIT) == BBFMM_DONE && HOLDS(points, (double[]){1e308}));
}

/* REFUSALS of the scaling call */

static void test_refused_scaling(void)
{
    const double infinite = 1e308 * 10;
    points[0] = 2;
    CHECK(bbfmm_scale_points(0, 4097, 0, LEND(CENTRE), LEND(points)) == BBFMM_NO_DIMENSION);
    CHECK(bbfmm_scale_points(4, 1, 4, LEND(CENTRE), LEND(points)) == BBFMM_NO_DIMENSION);
    CHECK(bbfmm_scale_points(1, 4097, 0, LEND(CENTRE), LEND(points)) == BBFMM_NO_COUNT);
    CHECK(bbfmm_scale_points(1, 1, 0, SHORT(CENTRE), LEND(points)) == BBFMM_WRONG_LENGTH);
    CHECK(bbfmm_scale_points(1, 1, 0, LEND(CENTRE), SHORT(points)) == BBFMM_WRONG_LENGTH);
    CHECK(bbfmm_scale_points(2, 1, 4, LEND(CENTRE), LEND(points)) == BBFMM_WRONG_LENGTH);
    CHECK(bbfmm_scale_points(1, 1, 0, &infinite, 1, LEND(points)) == BBFMM_NO_CELL);
    CHECK(bbfmm_scale_points(1, 1, infinite, LEND(CENTRE), LEND(points)) == BBFMM_NO_CELL);
    CHECK(bbfmm_scale_points(1, 0, 0, LEND(CENTRE), points, 0) == BBFMM_NO_CELL);
    CHECK(bbfmm_scale_points(1, 1, 4, &infinite, 1, LEND(points)) == BBFMM_NOT_FINITE);
    CHECK(bbfmm_scale_points(1, 0, 4, &infinite, 1, points, 0) == BBFMM_NOT_FINITE);
    CHECK(HOLDS(points, (double[]){2}));

    points[0] = infinite;
    CHECK(bbfmm_scale_points(1, 1, 4, LEND(CENTRE), LEND(points)) == BBFMM_NOT_FINITE);
    CHECK(HOLDS(points, &infinite));
}

/* The border of the cell on an axis, 1 + 2^-20 of half its length, and the coordinate one step of the last bit beyond it. */
static const double BORDER = 1 + 1.0 / 1048576;
static const double BEYOND = 1 + 1.0 / 1048576 + 1.0 / 4503599627370496;

/* One point of a cell about 0, on one axis of three, the others in the middle. */
static uint8_t placed(double length, size_t axis, double coordinate, double *three)
{
    static const double middle[3] = {0, 0, 0};
    for (size_t a = 0; a < 3; a++) {
        three[a] = a == axis ? coordinate * (length * 0.5) : 0;
    }
    return bbfmm_scale_points(3, 1, length, LEND(middle), three, 3);
}

static void test_border(void)
{
    const double lengths[3] = {1.0 / 1048576, 1, 1073741824};
    double three[3];
    for (size_t k = 0; k < 3 * 3 * 2; k++) {
        double length = lengths[k % 3];
        size_t axis = k / 3 % 3;
        double sign = k / 9 == 0 ? 1 : -1;
        CHECK(placed(length, axis, sign * BORDER, three) == BBFMM_DONE && three[axis] == sign * BORDER);
        CHECK(placed(length, axis, sign * BEYOND, three) == BBFMM_OUT_OF_CELL && three[axis] == sign * BEYOND * (length * 0.5));
    }
}

/* Two points of a line about `centre`. Nothing may change where they are refused. */
static uint8_t paired(double centre, double first, double second)
{
    double pair[2] = {first, second};
    uint8_t number = bbfmm_scale_points(1, 2, 4, &centre, 1, LEND(pair));
    CHECK(number == BBFMM_DONE || HOLDS(pair, ((double[]){first, second})));
    return number;
}

static void test_outside(void)
{
    const double none = 0;
    CHECK(paired(1, -1, 3) == BBFMM_DONE);
    CHECK(paired(1, 1, 6000) == BBFMM_OUT_OF_CELL);
    CHECK(paired(1, -6000, 1) == BBFMM_OUT_OF_CELL);
    /* What is not finite is told first, wherever the two points stand. */
    CHECK(paired(1, none / none, 6000) == BBFMM_NOT_FINITE);
    CHECK(paired(1, 6000, none / none) == BBFMM_NOT_FINITE);
    CHECK(paired(1 / none, 6000, 1) == BBFMM_NOT_FINITE);
    /* A finite point whose difference from the centre overflows. */
    CHECK(paired(-1e308, -1e308, 1e308) == BBFMM_OUT_OF_CELL);
}

/* REFUSALS of the second call */

static void test_refusals(void)
{
    fill_all();
    points[0] = 0.5;
    for (size_t with = 0; with < 2; with++) {
        CHECK(called(0, 17, 1, with == 1, 0, ALL_FIT) == BBFMM_NO_DIMENSION);
        CHECK(called(4, 2, 1, with == 1, 4, ALL_FIT) == BBFMM_NO_DIMENSION);
        CHECK(called(1, 0, 4097, with == 1, 0, ALL_FIT) == BBFMM_NO_ORDER);
        CHECK(called(1, 17, 1, with == 1, 4, ALL_FIT) == BBFMM_NO_ORDER);
        CHECK(called(1, 2, 4097, with == 1, 0, VALUES_LENT) == BBFMM_NO_COUNT);
        for (Lent wrong = POLYNOMIALS_LENT; wrong < ALL_FIT; wrong++) {
            CHECK(called(1, 2, 1, with == 1, 0, wrong) == BBFMM_WRONG_LENGTH);
        }
    }
    CHECK(called(1, 2, 1, true, 0, ALL_FIT) == BBFMM_NO_CELL);
    CHECK(HOLDS(points, (double[]){0.5}) && all_kept());
}

static void test_not_finite(void)
{
    const double none = 0;
    const double list[3] = {1 / none, -1 / none, none / none};
    fill_all();
    for (size_t k = 0; k < 3; k++) {
        points[0] = list[k];
        CHECK(called(1, 2, 1, false, 4, ALL_FIT) == BBFMM_NOT_FINITE);
        CHECK(called(1, 2, 1, true, 4, ALL_FIT) == BBFMM_NOT_FINITE);
        CHECK(called(1, 2, 1, true, 0, ALL_FIT) == BBFMM_NO_CELL);
        CHECK(called(1, 2, 1, false, 0, ALL_FIT) == BBFMM_NOT_FINITE);
        CHECK(HOLDS(points, &list[k]) && all_kept());
    }
}

/* Without gradients the length is not looked at. */
static void test_any_length(void)
{
    const double none = 0;
    const double lengths[5] = {0, -4, 1 / none, none / none, 1e300};
    points[0] = 0.5;
    for (size_t k = 0; k < 5; k++) {
        fill_all();
        CHECK(called(1, 2, 1, true, lengths[k], ALL_FIT) == BBFMM_NO_CELL && all_kept());
        CHECK(called(1, 2, 1, false, lengths[k], ALL_FIT) == BBFMM_DONE);
        CHECK(HOLDS(values, (double[]){0.25, 0.75}) && HOLDS(factors, (double[]){0.25, 0.75}));
        CHECK(KEPT(gradients) && KEPT(slopes));
    }
}

void test_coefficients(void)
{
    test_scaling();
    test_values();
    test_pair();
    test_twice();
    test_far_coordinates();
    test_refused_scaling();
    test_border();
    test_outside();
    test_refusals();
    test_not_finite();
    test_any_length();
}
