/* Holds bbfmm_evaluate_second_derivatives and bbfmm_get_curvature_coefficients to their rule on cases that are drawn: every shape, special
   floats, sides at both ends, points outside the cell, no points, many points, and faults alone and together; and to exact whole numbers
   where nothing rounds. Prints a line, and ends with 1 where something differs. */
#include "../distances/draw.h"
#include "exact.h"
#include "hold.h"

int printf(const char *format, ...);

enum { SECOND_CASES = 60000, CURVATURE_CASES = 120000 };

/* NUMBERS. No expression draws twice, so that every compiler draws the same. */

static double infinite(void)
{
    return float_of(0x7ff0000000000000);
}

static double with_sign(double x)
{
    return float_of(bits_of(x) ^ draw_below(2) << 63);
}

/* From -1 to 1. */
static double draw_inside(void)
{
    return (double)(draw() >> 10) * 0x1p-53 - 1;
}

static double draw_subnormal(void)
{
    uint64_t bits = draw();
    return with_sign(float_of(bits >> (12 + draw_below(52))));
}

/* NaNs of both kinds, infinities, zeros, the ends of the ranges, large ones whose products overflow, and one. */
static double draw_special(void)
{
    static const uint64_t SIZES[11] = {0x7ff8000000000000, 0x7ff0000000000001, 0x7ff0000000000000, 0, 1, 0xfffffffffffff,
        0x10000000000000, 0x7fefffffffffffff, 0x5fe0000000000000, 0x7fd0000000000000, 0x3ff0000000000000};
    return with_sign(float_of(SIZES[draw_below(11)]));
}

/* A float of bits that are any. */
static double draw_bits(void)
{
    return float_of(draw());
}

/* About 1 in size, a hundred times more, or a hundred times less. */
static double draw_spread(void)
{
    double x = draw_inside();
    return x * (double[]){4, 100, 0.01}[draw_below(3)];
}

/* WHAT IS GIVEN */

typedef enum { INSIDE, WHOLE, FACES, SPREAD, TINY, SPECIAL, ANY_BITS, KINDS } Kind;

static double draw_of(Kind kind)
{
    switch (kind) {
    case INSIDE: return draw_inside();
    case WHOLE: return (double)draw_below(7) - 3;
    case FACES: return with_sign((double[]){1, 1 + 0x1p-20, 1 - 0x1p-53, 1 + 0x1p-52}[draw_below(4)]);
    case SPREAD: return draw_spread();
    case TINY: return draw_subnormal();
    case SPECIAL: return draw_special();
    default: return draw_bits();
    }
}

/* One kind mostly, and often enough one of each. What is not finite becomes 0.5 where it would be refused. */
static void draw_coordinates(size_t count, bool are_finite)
{
    Kind kind = draw_below(2) == 0 ? INSIDE : (Kind)draw_below(KINDS);
    bool is_mixed = draw_below(4) == 0;
    for (size_t i = 0; i < count; i++) {
        double x = draw_of(is_mixed ? (Kind)draw_below(KINDS) : kind);
        drawn.coordinates[i] = are_finite && x - x != 0 ? 0.5 : x;
    }
}

/* Those of the Chebyshev nodes most often; of one kind; or with a few special ones among them. */
static void draw_polynomials(size_t order)
{
    static double nodes[ORDERS], none[1];
    size_t count = order * order;
    bbfmm_generate_chebyshev_nodes(order, nodes, order);
    bbfmm_evaluate_chebyshev_polynomials(order, order, nodes, order, false, drawn.polynomials, count, none, 0);
    size_t way = draw_below(4);
    Kind kind = (Kind)draw_below(KINDS);
    for (size_t i = 0; i < count && way == 0; i++) {
        drawn.polynomials[i] = draw_of(kind);
    }
    for (size_t k = way == 1 ? 1 + draw_below(3) : 0; k > 0; k--) {
        size_t place = draw_below(count);
        drawn.polynomials[place] = draw_special();
    }
}

static double draw_length(void)
{
    switch (draw_below(8)) {
    case 0: return 0x1p-20;
    case 1: return 0x1p30;
    case 2: return (double[]){0x1.0000000000001p-20, 0x1.fffffffffffffp29}[draw_below(2)];
    case 3: return 2;
    default: return float_of(bits_of(0x1p-20) + draw_below(bits_of(0x1p30) - bits_of(0x1p-20)));
    }
}

/* FAULTS */

static double draw_not_finite(void)
{
    static const uint64_t SIZES[3] = {0x7ff8000000000000, 0x7ff0000000000001, 0x7ff0000000000000};
    return with_sign(float_of(SIZES[draw_below(3)]));
}

static double draw_wrong_length(void)
{
    const double lengths[8] = {0, -0.0, -1, 0x1.fffffffffffffp-21, 0x1.0000000000001p30, infinite(), -infinite(),
        infinite() - infinite()};
    return lengths[draw_below(8)];
}

static void put_fault(Trial *trial, size_t buffers)
{
    double not_finite = draw_not_finite();
    switch (draw_below(buffers == BUFFERS ? 6 : 3)) {
    case 0: trial->told_order = (size_t[]){0, 17, 1 << 16, (size_t)-1}[draw_below(4)]; break;
    case 1: trial->told_rows = (size_t[]){4097, (size_t)-1}[draw_below(2)]; break;
    case 2: trial->wrong_buffer = draw_below(buffers), trial->is_longer = draw_below(2) == 0; break;
    case 3: trial->told_dimension = (size_t[]){0, 4, (size_t)-1}[draw_below(3)]; break;
    case 4: trial->length = draw_wrong_length(); break;
    default:
        if (trial->rows > 0) {
            drawn.coordinates[draw_below(trial->dimension * trial->rows)] = not_finite;
        }
    }
}

/* CASES */

static Trial trial_of(size_t dimension, size_t order, size_t rows)
{
    return (Trial){dimension, order, rows, dimension, order, rows, draw_length(), BUFFERS, false};
}

static void draw_second(size_t order, size_t rows, size_t faults)
{
    Trial trial = trial_of(1, order, rows);
    draw_coordinates(rows, false);
    for (; faults > 0; faults--) {
        put_fault(&trial, BUFFERS_OF_SECOND);
    }
    try_second(&trial);
}

static void draw_curvature(size_t dimension, size_t order, size_t rows, size_t faults)
{
    Trial trial = trial_of(dimension, order, rows);
    draw_coordinates(dimension * rows, true);
    draw_polynomials(order);
    for (; faults > 0; faults--) {
        put_fault(&trial, BUFFERS);
    }
    try_curvature(&trial);
}

/* Few points mostly, and now and then none. */
static size_t draw_rows(void)
{
    return draw_below(24) == 0 ? 0 : 1 + draw_below(6);
}

/* None in most cases, and up to four. */
static size_t draw_fault_count(void)
{
    return draw_below(6) > 0 ? 0 : 1 + draw_below(4);
}

static void try_drawn(void)
{
    static const size_t MOST[AXES + 1] = {0, 16, 6, 3};
    for (size_t k = 0; k < SECOND_CASES; k++) {
        size_t order = 1 + draw_below(ORDERS);
        size_t rows = draw_rows();
        draw_second(order, rows, draw_fault_count());
    }
    for (size_t k = 0; k < CURVATURE_CASES; k++) {
        size_t dimension = 1 + draw_below(AXES);
        size_t order = 1 + draw_below(MOST[dimension]);
        size_t rows = draw_rows();
        draw_curvature(dimension, order, rows, draw_fault_count());
    }
}

/* Every shape, with one to three points; then many points, and many nodes. */
static void try_shapes(void)
{
    static const size_t LARGE[7][3] = {{1, 1, 4096}, {1, 16, 4096}, {2, 16, 512}, {2, 3, 4096}, {3, 4, 4096}, {3, 5, 77}, {3, 16, 64}};
    for (size_t k = 0; k < 3 * AXES * ORDERS; k++) {
        draw_curvature(1 + k % AXES, 1 + k / AXES % ORDERS, 1 + k / AXES / ORDERS, 0);
    }
    for (size_t k = 0; k < 7; k++) {
        draw_curvature(LARGE[k][0], LARGE[k][1], LARGE[k][2], 0);
        draw_second(LARGE[k][1], LARGE[k][2], 0);
    }
}

/* Everything that is counted must have come, or the cases were not the right ones. */
static bool is_all_met(const Exact *exact)
{
    static const uint8_t NUMBERS[7] = {0, 1, 2, 3, 7, 8, 9};
    static const uint8_t SECOND_NUMBERS[4] = {0, 2, 3, 7};
    bool are = tally.not_finite > 0 && tally.outside > 0 && exact->second > 0 && exact->curvature > 0;
    for (size_t k = 0; k < 7; k++) {
        are = are && tally.numbers[NUMBERS[k]] > 0;
    }
    for (size_t k = 0; k < 4; k++) {
        are = are && tally.second_numbers[SECOND_NUMBERS[k]] > 0;
    }
    for (size_t k = 0; k < AXES * ORDERS; k++) {
        are = are && tally.shapes[1 + k / ORDERS][1 + k % ORDERS] && tally.orders[1 + k % ORDERS];
    }
    return are;
}

int main(void)
{
    try_shapes();
    try_drawn();
    Exact exact = try_exact();
    const size_t *s = tally.second_numbers, *n = tally.numbers;
    printf("tests/curvature: %zu calls for second derivatives, refused with 2: %zu, 3: %zu, 7: %zu; ", tally.second_calls, s[2], s[3],
        s[7]);
    printf("%zu for curvature, refused with 1: %zu, 2: %zu, 3: %zu, 7: %zu, 8: %zu, 9: %zu; ", tally.calls, n[1], n[2], n[3], n[7], n[8],
        n[9]);
    printf("%zu entries, %zu of them not finite; %zu coordinates outside the cell; ", tally.entries, tally.not_finite, tally.outside);
    printf("exact whole numbers: %zu of T, T' and T'', %zu of curvature and shares; ", exact.second, exact.curvature);
    size_t faults = tally.faults + exact.faults;
    if (faults > 0 || !is_all_met(&exact)) {
        printf("%zu differences%s\n", faults, is_all_met(&exact) ? "" : ", and not everything was met");
        return 1;
    }
    printf("all equal\n");
    return 0;
}
