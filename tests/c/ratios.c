/* Ratio maps: all three answers on a line where no operation rounds, air as it is, the floor and both sides of it, what is not
   finite, and every refusal with all lent memory. */
#include "check.h"

/* A float that no call writes here, in the places that must stay as lent. */
static const double X = -7;

/* The largest float, the smallest above 0, a NaN, and infinity. */
static const double LARGEST = 0x1.fffffffffffffp1023;
static const double SMALLEST = 0x1p-1074;
static const double NONE = 0.0 / 0.0;
static const double INFINITE = 1 / 0.0;

/* A LINE: a cell of length 4 about 1 with two nodes, and five points at which the second node counts for 0, 0.25, 0.5, 0.75 and 1. */

static const double CENTRE[1] = {1};
static const double POLYNOMIALS[4] = {1, 1, -0.5, 0.5};
static double points[5];
static double values[10];
static double factors[10];
static uint8_t answers[5];
static double ratios[5];

static uint8_t mapped(double floor, const double *carbon_monoxide, const double *nitrogen, const double *oxygen)
{
    FILL(values);
    FILL(factors);
    FILL(answers);
    for (size_t i = 0; i < 5; i++) {
        points[i] = (double)i - 1;
        ratios[i] = X;
    }
    return bbfmm_graham_ratios(
        1, 2, 4, 5, floor, LEND(CENTRE), LEND(POLYNOMIALS), LEND(points), carbon_monoxide, 2, nitrogen, 2, oxygen, 2, LEND(values),
        LEND(factors), LEND(answers), LEND(ratios));
}

/* What scaling and the coefficient call leave. */
static void check_values(void)
{
    const double shares[10] = {1, 0.75, 0.5, 0.25, 0, 0, 0.25, 0.5, 0.75, 1};
    CHECK(HOLDS(points, (double[]){-1, -0.5, 0, 0.5, 1}));
    CHECK(HOLDS(values, shares));
    CHECK(HOLDS(factors, shares));
}

/* Without nitrogen the deficiency is the oxygen below 0: 4, 3, 2, 1, 0. The third is the floor. */
static void test_line(void)
{
    CHECK(mapped(2, (double[]){2, 6}, (double[]){0, 0}, (double[]){-4, 0}) == BBFMM_DONE);
    CHECK(HOLDS(answers, (uint8_t[]){BBFMM_AIR_RATIO, BBFMM_AIR_RATIO, BBFMM_AIR_RATIO, BBFMM_AIR_FRESH, BBFMM_AIR_FRESH}));
    CHECK(HOLDS(ratios, (double[]){50, 100, 200, X, X}));
    check_values();

    /* All three answers: 100 * CO overflows from the second point on, and at the last two nobody asks for it. */
    CHECK(mapped(2, (double[]){0, 1e308}, (double[]){0, 0}, (double[]){-4, 0}) == BBFMM_DONE);
    CHECK(HOLDS(answers, (uint8_t[]){BBFMM_AIR_RATIO, BBFMM_AIR_UNUSABLE, BBFMM_AIR_UNUSABLE, BBFMM_AIR_FRESH, BBFMM_AIR_FRESH}));
    CHECK(HOLDS(ratios, (double[]){0, X, X, X, X}));
    check_values();

    /* A node that counts for nothing still counts where it is infinite: 0 * infinity is a NaN. */
    CHECK(mapped(2, (double[]){2, 6}, (double[]){0, 0}, (double[]){-4, INFINITE}) == BBFMM_DONE);
    CHECK(HOLDS(answers, (uint8_t[]){1, 1, 1, 1, 1}) && HOLDS(ratios, (double[]){X, X, X, X, X}));
    check_values();
}

/* In the middle of a square its four nodes count for a quarter each; the deficiency is 1. */
static double ratio_in_square(const double *carbon_monoxide)
{
    const double zeros[4] = {0, 0, 0, 0};
    const double oxygen[4] = {-1, -1, -1, -1};
    double middle[2] = {0, 0}, each[4], shares[4], ratio[1] = {X};
    uint8_t answer[1] = {9};
    CHECK(bbfmm_graham_ratios(
        2, 2, 2, 1, 0.5, zeros, 2, LEND(POLYNOMIALS), LEND(middle), carbon_monoxide, 4, LEND(zeros), LEND(oxygen), LEND(each),
        LEND(shares), LEND(answer), LEND(ratio)) == BBFMM_DONE);
    CHECK(HOLDS(each, (double[]){0.25, 0.25, 0.25, 0.25}) && answer[0] == BBFMM_AIR_RATIO);
    return ratio[0];
}

/* A sum goes from the first node to the last, and rounds each product before it adds it. */
static void test_sums(void)
{
    /* 2^53 and 1 is 2^53, twice over; but -2^53 and 1 is rounded nowhere. */
    CHECK(ratio_in_square((double[]){0x1p55, 4, 4, -0x1p55}) == 0);
    CHECK(ratio_in_square((double[]){-0x1p55, 4, 4, 0x1p55}) == 200);
    /* At the fourth point -0.75 meets 0.75 * (1 + 2^-52), which is rounded up by half of its last bit. */
    CHECK(mapped(0.5, (double[]){-3, 0x1.0000000000001p0}, (double[]){0, 0}, (double[]){-1, -1}) == BBFMM_DONE);
    CHECK(answers[3] == BBFMM_AIR_RATIO && ratios[3] == 100 * 0x1p-52);
}

/* ONE NODE, which counts for 1 at every point: each gas is its entry, in all dimensions. */

typedef struct {
    double carbon_monoxide, nitrogen, oxygen;
} Air;

/* Whether all that is written at three points is this, in each dimension; the ratio is X where none may be. */
static bool breathed(double floor, Air air, uint8_t answer, double ratio)
{
    const double middle[3] = {0, 0, 0};
    const double one[1] = {1};
    bool is = true;
    for (size_t dimension = 1; dimension <= 3; dimension++) {
        double at[9] = {0.125, 0.25, 0.375, -0.125, -0.25, -0.375, 0.5, 0.75, 1};
        double each[3], shares[9], found[3] = {X, X, X};
        uint8_t flags[3] = {9, 9, 9};
        uint8_t number = bbfmm_graham_ratios(
            dimension, 1, 2, 3, floor, middle, dimension, LEND(one), at, 3 * dimension, &air.carbon_monoxide, 1, &air.nitrogen, 1,
            &air.oxygen, 1, LEND(each), shares, 3 * dimension, LEND(flags), LEND(found));
        is = is && number == BBFMM_DONE && HOLDS(each, (double[]){1, 1, 1});
        is = is && HOLDS(flags, (uint8_t[]){answer, answer, answer}) && HOLDS(found, (double[]){ratio, ratio, ratio});
    }
    return is;
}

static bool has_ratio(double floor, Air air, double ratio)
{
    return breathed(floor, air, BBFMM_AIR_RATIO, ratio);
}

static bool is_fresh(double floor, Air air)
{
    return breathed(floor, air, BBFMM_AIR_FRESH, X);
}

static bool is_unusable(double floor, Air air)
{
    return breathed(floor, air, BBFMM_AIR_UNUSABLE, X);
}

/* The old goaf and the fresh air of docs/EVIDENCE.md. The ratios are (100*CO) / ((0.265*N2) - O2), rounded at each step; the last one
   is another by its last bit where the division comes before the 100, and by many where the deficiency is fused. */
static void test_air(void)
{
    const Air goaf = {0.0060, 86.00, 9.79};
    const Air fresh = {0.0001, 79.04, 20.93};
    const Air too_high = {0.0001, 79.04, 20.94};
    CHECK(has_ratio(0.1, goaf, 0x1.7a17a17a17a16p-5));
    CHECK(is_fresh(0.1, fresh));
    CHECK(is_fresh(0.1, too_high));
    CHECK(has_ratio(1e-6, goaf, 0x1.7a17a17a17a16p-5));
    CHECK(has_ratio(1e-6, fresh, 0x1.4834834834445p-1));
    CHECK(has_ratio(1e-6, too_high, 0x1.c9249249242a3p+0));
}

/* A deficiency of 1 at the floors about it; and the floors that are just taken. */
static void test_floor(void)
{
    CHECK(has_ratio(1, (Air){0.5, 0, -1}, 50));
    CHECK(has_ratio(0x1.fffffffffffffp-1, (Air){0.5, 0, -1}, 50));
    CHECK(is_fresh(0x1.0000000000001p0, (Air){0.5, 0, -1}));
    CHECK(has_ratio(LARGEST, (Air){0x1p1000, 0, -LARGEST}, 0x1.9000000000001p-18));
    CHECK(is_fresh(LARGEST, (Air){1, 0, -0x1.ffffffffffffep1023}));
    CHECK(has_ratio(SMALLEST, (Air){3 * SMALLEST, 0, -SMALLEST}, 300));
    CHECK(has_ratio(SMALLEST, (Air){1, 0, -1}, 100));
    CHECK(is_fresh(SMALLEST, (Air){1, 0, 0}));
    /* 0.265 of the smallest float is 0, and has its sign. */
    CHECK(is_fresh(SMALLEST, (Air){1, -SMALLEST, 0}));
    CHECK(is_fresh(SMALLEST, (Air){1, 0, SMALLEST}));
    CHECK(is_fresh(0.5, (Air){1, 0, 100}));
    CHECK(is_fresh(0.5, (Air){1, 0, LARGEST}));
}

/* The deficiency is looked at first, then the floor, then the ratio. */
static void test_not_finite(void)
{
    CHECK(is_unusable(0.5, (Air){1, NONE, 0}));
    CHECK(is_unusable(0.5, (Air){1, 0, NONE}));
    CHECK(is_unusable(0.5, (Air){1, INFINITE, 0}));
    CHECK(is_unusable(0.5, (Air){1, -INFINITE, 0}));
    CHECK(is_unusable(0.5, (Air){1, 0, INFINITE}));
    CHECK(is_unusable(0.5, (Air){1, 0, -INFINITE}));
    CHECK(is_unusable(0.5, (Air){1, INFINITE, INFINITE}));
    CHECK(is_unusable(0.5, (Air){1, LARGEST, -LARGEST}));
    CHECK(is_unusable(0.5, (Air){1, -LARGEST, LARGEST}));
    CHECK(is_unusable(0.5, (Air){NONE, 0, -1}));
    CHECK(is_unusable(0.5, (Air){INFINITE, 0, -1}));
    CHECK(is_unusable(0.5, (Air){-INFINITE, 0, -1}));
    CHECK(is_fresh(0.5, (Air){NONE, 0, 0}));
    CHECK(is_fresh(0.5, (Air){INFINITE, 0, 0.25}));
    CHECK(is_fresh(0.5, (Air){-INFINITE, 0, -0.25}));
    /* 100 * CO overflows though the ratio would not; and the other way round. */
    CHECK(is_unusable(0.5, (Air){0x1p1020, 0, -0x1p1000}));
    CHECK(is_unusable(SMALLEST, (Air){1, 0, -SMALLEST}));
    CHECK(is_unusable(SMALLEST, (Air){-1, 0, -SMALLEST}));
}

/* Ratios of any sign and size. A gas is a sum from +0.0, so that no entry makes it -0.0. */
static void test_any_ratio(void)
{
    CHECK(has_ratio(0.5, (Air){-0.25, 0, -1}, -25));
    CHECK(has_ratio(0.5, (Air){0, 0, -1}, 0));
    CHECK(has_ratio(0.5, (Air){-0.0, 0, -1}, 0));
    CHECK(has_ratio(0.5, (Air){-SMALLEST, 0, -0x1p100}, -0.0));
    CHECK(has_ratio(0.5, (Air){SMALLEST, 0, -4}, 25 * SMALLEST));
    CHECK(has_ratio(0.5, (Air){1, 0x1p1000, 0}, 0x1.795bc609a90e8p-992));
}

/* A point 1 + 2^-20 halves of the side from the centre is still in the cell, and the next one is not. */
static void test_border(void)
{
    const double border = 1 + 0x1p-20;
    const double beyond = 1 + 0x1p-20 + 0x1p-52;
    const double zero[1] = {0};
    const double one[1] = {1};
    double pair[2], each[2], shares[2], found[2] = {X, X};
    uint8_t flags[2] = {9, 9};
    for (size_t k = 0; k < 4; k++) {
        double sign = k % 2 == 0 ? 1 : -1;
        double far = sign * (k < 2 ? beyond : border);
        pair[0] = 0;
        pair[1] = far;
        uint8_t number = bbfmm_graham_ratios(
            1, 1, 2, 2, 0.5, LEND(zero), LEND(one), LEND(pair), LEND(one), LEND(zero), (double[]){-1}, 1, LEND(each), LEND(shares),
            LEND(flags), LEND(found));
        CHECK(number == (k < 2 ? BBFMM_OUT_OF_CELL : BBFMM_DONE));
        CHECK(HOLDS(pair, ((double[]){0, far})));
        CHECK(k < 2 ? flags[1] == 9 && found[1] == X : flags[1] == BBFMM_AIR_RATIO && found[1] == 100);
    }
}

/* REFUSALS */

enum { BUFFERS = 10, MOST = 4097, CROWD = 4 * MOST };

/* What a call is told: the length of each buffer stands in its order. */
typedef struct {
    size_t dimension, order;
    double length;
    size_t rows;
    double floor;
    size_t lengths[BUFFERS];
} Told;

/* Three points of a square with two nodes an axis; and so many that they are too many. */
static const Told RIGHT = {2, 2, 4, 3, 0.5, {2, 4, 6, 4, 4, 4, 12, 12, 3, 3}};
static const Told CROWDED = {2, 2, 4, MOST, 0.5, {2, 4, 2 * MOST, 4, 4, 4, CROWD, CROWD, MOST, MOST}};

/* Room for that, and for an entry more. The pattern, as a coordinate, is next to nothing: with a centre of it each point lies in the
   middle. */
static struct {
    double centre[3], polynomials[5], points[2 * MOST + 1], gases[3][5], values[CROWD + 1], factors[CROWD + 1], ratios[MOST + 1];
    uint8_t answers[MOST + 1];
} lent;

static uint8_t told(Told what)
{
    const size_t *lengths = what.lengths;
    return bbfmm_graham_ratios(
        what.dimension, what.order, what.length, what.rows, what.floor, lent.centre, lengths[0], lent.polynomials, lengths[1],
        lent.points, lengths[2], lent.gases[0], lengths[3], lent.gases[1], lengths[4], lent.gases[2], lengths[5], lent.values,
        lengths[6], lent.factors, lengths[7], lent.answers, lengths[8], lent.ratios, lengths[9]);
}

/* The same with one coordinate, a point's or the centre's. The pattern comes back in its place, and it is counted if it was moved. */
static size_t moved;
static uint8_t told_with(Told what, double *coordinate, double x)
{
    *coordinate = x;
    uint8_t number = told(what);
    moved += !same(coordinate, &x, sizeof x);
    fill(coordinate, sizeof x);
    return number;
}

static void test_shapes(void)
{
    const size_t wrong[3] = {0, 4, (size_t)-1};
    for (size_t k = 0; k < 3; k++) {
        Told what = RIGHT;
        what.dimension = wrong[k];
        CHECK(told(what) == BBFMM_NO_DIMENSION);
        what = RIGHT;
        what.order = wrong[k] == 4 ? 17 : wrong[k];
        CHECK(told(what) == BBFMM_NO_ORDER);
    }
    Told what = RIGHT;
    what.rows = (size_t)-1;
    CHECK(told(CROWDED) == BBFMM_NO_COUNT);
    CHECK(told(what) == BBFMM_NO_COUNT);
}

/* Each buffer one entry short, one long, and empty. */
static void test_lengths(void)
{
    for (size_t i = 0; i < BUFFERS; i++) {
        const size_t wrong[3] = {RIGHT.lengths[i] - 1, RIGHT.lengths[i] + 1, 0};
        for (size_t k = 0; k < 3; k++) {
            Told what = RIGHT;
            what.lengths[i] = wrong[k];
            CHECK(told(what) == BBFMM_WRONG_LENGTH);
        }
    }
}

static void test_numbers(void)
{
    const double sides[7] = {0x1.fffffffffffffp-21, 0x1.0000000000001p30, 0, -4, NONE, INFINITE, -INFINITE};
    const double floors[9] = {0, -0.0, -0.5, -SMALLEST, -LARGEST, INFINITE, -INFINITE, NONE, -NONE};
    for (size_t k = 0; k < 9; k++) {
        Told what = RIGHT;
        what.floor = floors[k];
        CHECK(told(what) == BBFMM_NO_FLOOR);
        what.length = sides[k % 7];
        CHECK(told(what) == BBFMM_NO_CELL);
    }
}

/* Every coordinate of the points and of the centre. */
static void test_coordinates(void)
{
    const double infinities[4] = {NONE, -NONE, INFINITE, -INFINITE};
    const double outside[4] = {2 + 0x1.8p-19, -2 - 0x1.8p-19, 6000, -LARGEST};
    for (size_t i = 0; i < 8; i++) {
        double *coordinate = i < 6 ? &lent.points[i] : &lent.centre[i - 6];
        for (size_t k = 0; k < 4; k++) {
            CHECK(told_with(RIGHT, coordinate, infinities[k]) == BBFMM_NOT_FINITE);
            /* A centre that is far off leaves the points outside. */
            CHECK(told_with(RIGHT, coordinate, outside[k]) == BBFMM_OUT_OF_CELL);
        }
    }
}

/* Any of these faults together, each buffer in turn the one that is short: the lowest number is told. A point that is not finite
   stands now before the one that is outside, and now behind it. */
static uint8_t told_faults(size_t faults, size_t buffer)
{
    Told what = (faults & 4) != 0 ? CROWDED : RIGHT;
    what.dimension = (faults & 1) != 0 ? 0 : what.dimension;
    what.order = (faults & 2) != 0 ? 17 : what.order;
    what.lengths[buffer] -= (faults & 8) != 0;
    what.length = (faults & 16) != 0 ? 0 : what.length;
    what.floor = (faults & 128) != 0 ? NONE : what.floor;
    double *outside = &lent.points[2];
    if ((faults & 64) != 0) {
        *outside = 6000;
    }
    uint8_t number = (faults & 32) != 0 ? told_with(what, &lent.points[buffer % 2 * 5], INFINITE) : told(what);
    moved += (faults & 64) != 0 && *outside != 6000;
    fill(outside, sizeof *outside);
    return number;
}

static void test_many_faults(void)
{
    static const uint8_t NUMBERS[8] = {
        BBFMM_NO_DIMENSION, BBFMM_NO_ORDER, BBFMM_NO_COUNT, BBFMM_WRONG_LENGTH, BBFMM_NO_CELL, BBFMM_NOT_FINITE, BBFMM_OUT_OF_CELL,
        BBFMM_NO_FLOOR};
    size_t differ = 0;
    for (size_t faults = 1; faults < 256; faults++) {
        size_t lowest = 0;
        while ((faults >> lowest & 1) == 0) {
            lowest++;
        }
        for (size_t buffer = 0; buffer < BUFFERS; buffer++) {
            differ += told_faults(faults, buffer) != NUMBERS[lowest];
        }
    }
    CHECK(differ == 0);
}

/* No points: the floor is still looked at, and the cell and all lengths; and nothing is written. */
static void test_no_points(void)
{
    const Told none = {2, 2, 4, 0, 0.5, {2, 4, 0, 4, 4, 4, 0, 0, 0, 0}};
    CHECK(told(none) == BBFMM_DONE);
    Told what = none;
    what.floor = 0;
    CHECK(told(what) == BBFMM_NO_FLOOR);
    CHECK(told_with(what, &lent.centre[1], NONE) == BBFMM_NOT_FINITE);
    what.length = 0;
    CHECK(told(what) == BBFMM_NO_CELL);
    for (size_t i = 0; i < BUFFERS; i++) {
        what.lengths[i]++;
        CHECK(told(what) == BBFMM_WRONG_LENGTH);
        what.lengths[i]--;
    }
}

static void test_refusals(void)
{
    fill(&lent, sizeof lent);
    test_shapes();
    test_lengths();
    test_numbers();
    test_coordinates();
    test_many_faults();
    test_no_points();
    CHECK(kept(&lent, sizeof lent) && moved == 0);
    /* What the faults were put into has none itself. */
    CHECK(told_faults(0, 0) == BBFMM_DONE);
}

void test_ratios(void)
{
    test_line();
    test_sums();
    test_air();
    test_floor();
    test_not_finite();
    test_any_ratio();
    test_border();
    test_refusals();
}
