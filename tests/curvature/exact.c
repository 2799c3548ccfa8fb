/* Where nothing rounds, the calls are held to exact numbers, and these to no recurrence: T of an order is its polynomial, coefficient by
   coefficient, and its derivatives are that differentiated term by term. Coordinates are halves of whole numbers, T at the nodes is a small
   whole number, and orders and sides are powers of two. A zero may have either sign. */
#include "exact.h"
#include "../distances/draw.h"
#include "rule.h"

int printf(const char *format, ...);

enum { CASES = 20000, ROWS = 4, NODES = 4096, HALVES = 80, SHIFT = 15 };

__extension__ typedef __int128 Wide;

static Exact exact;

/* POLYNOMIALS */

static int64_t binomial(int64_t n, int64_t k)
{
    int64_t result = 1;
    for (int64_t i = 1; i <= k; i++) {
        result = result * (n - k + i) / i;
    }
    return result;
}

/* The coefficient of x to the power of n - 2k in T of order n, by the formula for it: 2^(n-2k-1) * n / (n - k) * binomial(n - k, k), of
   changing sign. */
static int64_t coefficient(int64_t n, int64_t k)
{
    if (n == 0) {
        return 1;
    }
    int64_t size = binomial(n - k, k) * n / (n - k);
    int64_t power = n - 2 * k;
    size = power == 0 ? size / 2 : size << (power - 1);
    return k % 2 == 0 ? size : -size;
}

/* 2^15 times T of order n at x/2, or its derivative, once or twice. */
static Wide scaled(int64_t n, size_t derivative, int64_t x)
{
    Wide sum = 0;
    for (int64_t k = 0; 2 * k <= n; k++) {
        int64_t power = n - 2 * k;
        Wide term = coefficient(n, k);
        for (size_t d = 0; d < derivative; d++) {
            term *= power > 0 ? power-- : 0;
        }
        for (int64_t i = 0; i < power; i++) {
            term *= x;
        }
        sum += term * ((Wide)1 << (SHIFT - power));
    }
    return sum;
}

/* FLOATS */

/* The float of a wide number, which is exact where the number has few enough digits. */
static double float_of_wide(Wide wide)
{
    int64_t high = (int64_t)(wide >> 32);
    int64_t low = (int64_t)(wide & 0xffffffff);
    return (double)high * 0x1p32 + (double)low;
}

/* So small that no sum of two terms of the recurrence rounds: below 2^50, counted in halves. */
static bool is_small(Wide wide)
{
    Wide most = (Wide)1 << (50 + SHIFT);
    return -most < wide && wide < most;
}

static void expect(double found, double expected, const char *what, size_t a, size_t b)
{
    if (!(found == expected)) {
        if (exact.faults++ < 10) {
            printf("exact: %s, %zu, %zu: %a in place of %a\n", what, a, b, found, expected);
        }
    }
}

/* SECOND DERIVATIVES, at every half from -40 to 40, up to the order where something could round */

static size_t order_for(int64_t x)
{
    size_t order = 1;
    while (order < ORDERS && is_small(scaled((int64_t)order, 2, x)) && is_small(scaled((int64_t)order, 1, x))) {
        order++;
    }
    return order;
}

static void try_second_at(int64_t x)
{
    double point = (double)x / 2;
    double all[3][ORDERS];
    size_t order = order_for(x);
    uint8_t number = bbfmm_evaluate_second_derivatives(order, 1, &point, 1, all[0], order, all[1], order, all[2], order);
    expect(number, BBFMM_DONE, "refused", order, 0);
    for (size_t j = 0; j < 3 * order; j++) {
        double wanted = float_of_wide(scaled((int64_t)(j % order), j / order, x)) * 0x1p-15;
        expect(all[j / order][j % order], wanted, (const char *[]){"T", "T'", "T''"}[j / order], j % order, (size_t)(x + HALVES));
        exact.second++;
    }
}

/* CURVATURE */

/* What is drawn: the coordinates in halves, and T at the nodes. */
static int64_t halves[AXES * ROWS], at_nodes[ORDERS * ORDERS];

/* What the call is lent. */
static double polynomials[ORDERS * ORDERS], coordinates[AXES * ROWS], curvatures[PAIRS * NODES * ROWS], factors[AXES * ORDERS * ROWS];
static double slopes[AXES * ORDERS * ROWS], bends[AXES * ORDERS * ROWS], room[3 * ORDERS * ROWS];

typedef struct {
    size_t dimension, order, rows;
    double length;
} Shape;

/* S, S' or S'' as a whole number times a power of two. */
typedef struct {
    int64_t whole;
    double scale;
} Share;

static Share share_of(const Shape *s, size_t derivative, size_t point, size_t axis, size_t node)
{
    Wide sum = 0;
    double order = (double)s->order;
    for (size_t k = 0; k < s->order; k++) {
        sum += scaled((int64_t)k, derivative, halves[point + axis * s->rows]) * at_nodes[node + k * s->order];
    }
    if (derivative == 0) {
        return (Share){(int64_t)((2 * sum - ((Wide)1 << SHIFT)) >> SHIFT), 1 / order};
    }
    double scale = 2 / order * (2 / s->length);
    return (Share){(int64_t)(sum >> SHIFT), derivative == 1 ? scale : scale * (2 / s->length)};
}

/* Makes a product longer by a factor. A scale of 0 says that it is too long for a float. */
static void lengthen(Share *product, Share by)
{
    double size = (double)product->whole * (double)by.whole;
    bool is_exact = product->scale > 0 && -0x1p53 < size && size < 0x1p53;
    *product = is_exact ? (Share){product->whole * by.whole, product->scale * by.scale} : (Share){0, 0};
}

static size_t index_on(const Shape *s, size_t axis, size_t node)
{
    for (size_t a = s->dimension - 1; a > axis; a--) {
        node /= s->order;
    }
    return node % s->order;
}

static Share curvature_of(const Shape *s, size_t point, size_t g, size_t h, size_t node)
{
    Share product = {1, 1};
    for (size_t k = 0; k < 2 * s->dimension; k++) {
        size_t axis = k % s->dimension;
        bool is_first = axis == g || axis == h;
        if (is_first == (k < s->dimension)) {
            size_t derivative = !is_first ? 0 : g == h ? 2 : 1;
            lengthen(&product, share_of(s, derivative, point, axis, index_on(s, axis, node)));
        }
    }
    return product;
}

static void hold_shares(const Shape *s)
{
    const double *const found[3] = {factors, slopes, bends};
    for (size_t place = 0; place < s->dimension * s->order * s->rows; place++) {
        size_t point = place % s->rows, axis = place / s->rows / s->order, node = place / s->rows % s->order;
        for (size_t derivative = 0; derivative < 3; derivative++) {
            Share share = share_of(s, derivative, point, axis, node);
            expect(found[derivative][place], (double)share.whole * share.scale, "a share", derivative, place);
            exact.curvature++;
        }
    }
}

static void hold_curvatures(const Shape *s)
{
    size_t place = 0;
    for (size_t g = 0; g < s->dimension; g++) {
        for (size_t h = g; h < s->dimension; h++) {
            for (size_t i = 0; i < nodes_of(s->dimension, s->order) * s->rows; i++, place++) {
                Share wanted = curvature_of(s, i % s->rows, g, h, i / s->rows);
                expect(wanted.scale > 0, true, "too long for a float", g * 10 + h, i);
                expect(curvatures[place], (double)wanted.whole * wanted.scale, "curvature", g * 10 + h, i);
                exact.curvature++;
            }
        }
    }
}

/* The room is held where the second derivatives are: at every half. */
static void try_shape(const Shape *s)
{
    size_t axes = s->dimension * s->order * s->rows;
    size_t all = pairs_of(s->dimension) * nodes_of(s->dimension, s->order) * s->rows;
    uint8_t number = bbfmm_get_curvature_coefficients(s->dimension, s->order, s->rows, s->length, polynomials, s->order * s->order,
        coordinates, s->dimension * s->rows, curvatures, all, factors, axes, slopes, axes, bends, axes, room, 3 * s->order * s->rows);
    expect(number, BBFMM_DONE, "refused", s->dimension, s->order);
    hold_shares(s);
    hold_curvatures(s);
}

/* Halves up to 2 in size, and up to 1 for order 16, whose numbers are long; sides from end to end. */
static void draw_shape(void)
{
    Shape s = {1 + draw_below(3), (size_t)1 << draw_below(4), 1 + draw_below(ROWS), 1};
    s.order = s.dimension == 1 && draw_below(3) == 0 ? 16 : s.dimension == 3 && s.order == 8 ? 4 : s.order;
    s.length = float_of((1023 - 20 + draw_below(51)) << 52);
    int64_t most = s.order == 16 ? 2 : 4;
    for (size_t i = 0; i < s.dimension * s.rows; i++) {
        halves[i] = (int64_t)draw_below((uint64_t)(2 * most + 1)) - most;
        coordinates[i] = (double)halves[i] / 2;
    }
    for (size_t i = 0; i < s.order * s.order; i++) {
        at_nodes[i] = (int64_t)draw_below(7) - 3;
        polynomials[i] = (double)at_nodes[i];
    }
    try_shape(&s);
}

Exact try_exact(void)
{
    for (int64_t x = -HALVES; x <= HALVES; x++) {
        try_second_at(x);
    }
    for (size_t k = 0; k < CASES; k++) {
        draw_shape();
    }
    return exact;
}
