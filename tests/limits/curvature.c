/* Curvature at reference coordinates. The parameters are walked with all buffers alike, exact, short, long or empty; and the lengths, each
   for itself, with a few cells. Then every coordinate, far outside the cell and not finite, beside every side; and every set of faults, of
   which the lowest number counts. */
#include "walk.h"

enum { BUFFERS = 7, MOST = 4096 };

BUFFER(polynomials, double, 300, 7);
BUFFER(coordinates, double, 12300, 7);
BUFFER(curvatures, double, 24600, 7);
BUFFER(factors, double, 12300, 7);
BUFFER(slopes, double, 12300, 7);
BUFFER(bends, double, 12300, 7);
BUFFER(room, double, 12300, 7);

/* What a call is told. Every coordinate is the pattern, which is outside the cell, but for odd ones. */
typedef struct {
    size_t dimension, order, rows;
    double side;
    size_t digits[BUFFERS];
    Odd odd[2];
} Trial;

/* THE NUMBER, by documents 01 to 03 */

/* How many pairs g <= h there are, or a number above any room. */
static size_t pairs(size_t dimension)
{
    return dimension <= 3 ? dimension * (dimension + 1) / 2 : (size_t)-1;
}

static bool lend_all(const Trial *t)
{
    size_t each = product(power(t->dimension, t->order), t->rows);
    size_t axes = product(product(t->dimension, t->order), t->rows);
    bool fits = lend(&polynomials, product(t->order, t->order), t->digits[0]);
    fits = lend(&coordinates, product(t->dimension, t->rows), t->digits[1]) && fits;
    fits = lend(&curvatures, product(pairs(t->dimension), each), t->digits[2]) && fits;
    fits = lend(&factors, axes, t->digits[3]) && fits;
    fits = lend(&slopes, axes, t->digits[4]) && fits;
    fits = lend(&bends, axes, t->digits[5]) && fits;
    return lend(&room, product(3, product(t->order, t->rows)), t->digits[6]) && fits;
}

static uint8_t number_of(const Trial *t, bool fits)
{
    bool are_finite = true;
    for (size_t i = 0; i < coordinates.length; i++) {
        are_finite = are_finite && is_finite(coordinates_place[i]);
    }
    uint8_t number = first(of_shape(t->dimension, t->order), unless(t->rows <= MOST, BBFMM_NO_COUNT));
    number = first(number, unless(fits, BBFMM_WRONG_LENGTH));
    number = first(number, unless(0x1p-20 <= t->side && t->side <= 0x1p30, BBFMM_NO_CELL));
    return first(number, unless(are_finite, BBFMM_NOT_FINITE));
}

/* A CALL. Coordinates and polynomials are only read, whatever it answers. */

static Outcome call(const Trial *t)
{
    bool fits = lend_all(t);
    put_odd(&t->odd[0]);
    put_odd(&t->odd[1]);
    uint8_t expected = number_of(t, fits);
    uint8_t number = bbfmm_get_curvature_coefficients(
        t->dimension, t->order, t->rows, t->side, LENT(polynomials), LENT(coordinates), LENT(curvatures), LENT(factors), LENT(slopes),
        LENT(bends), LENT(room));
    bool is_changed = take_odd(&t->odd[0], true);
    is_changed = take_odd(&t->odd[1], true) || is_changed;
    is_changed = !is_kept(&polynomials, polynomials.length) || !is_kept(&coordinates, coordinates.length) || is_changed;
    return (Outcome){expected, number, is_changed};
}

/* A cell and coordinates that nothing is wrong with. */
static Trial plain(size_t dimension, size_t order, size_t rows)
{
    return (Trial){dimension, order, rows, 1, {0}, {{0, 0}, {0, 0}}};
}

/* Six dimensions, six orders, six counts of rows, eight sides, no fault or a coordinate that is not finite, the first or the last of the
   first axis, four lengths. */
enum { CELLS = 6 * 6 * 6 * 8 * 3 * 4 };

static Outcome in_cell(size_t k)
{
    size_t dimension = dimension_at(take(&k, 6));
    size_t order = order_at(take(&k, 6));
    size_t rows = rows_at(take(&k, 6));
    Trial t = plain(dimension, order, rows);
    t.side = side_at(take(&k, 8));
    size_t fault = take(&k, 3);
    if (fault == 1) {
        t.odd[0] = (Odd){coordinates_place, not_a_number()};
    } else if (fault == 2 && 1 <= rows && rows <= MOST) {
        t.odd[0] = (Odd){coordinates_place + rows - 1, infinite()};
    }
    for (size_t i = 0; i < BUFFERS; i++) {
        t.digits[i] = k;
    }
    return call(&t);
}

/* Two dimensions, four lengths for each of seven buffers. */
enum { LENGTHS = 2 * 4 * 4 * 4 * 4 * 4 * 4 * 4 };

static Outcome with_lengths(size_t k)
{
    Trial t = plain(take(&k, 2) == 0 ? 1 : 3, 3, 3);
    for (size_t i = 0; i < BUFFERS; i++) {
        t.digits[i] = take(&k, 4);
    }
    return call(&t);
}

static Outcome get_curvature_coefficients(size_t k)
{
    return k < CELLS ? in_cell(k) : with_lengths(k - CELLS);
}

/* COORDINATES: one of three points, on each axis; what it is; another that may not be finite, or a polynomial that is not, which is taken;
   eight sides. */
enum { POINTS = 3, PLACES = 3 * 3, REFERENCES = 20, OTHERS = 4, AT_COORDINATES = 3 * PLACES * REFERENCES * OTHERS * 8 };

/* The cell's face and border, and the float beyond it; far outside; the ends of the ranges; zeros; and what is not finite. */
static double reference_at(size_t k)
{
    static const double LIST[8] = {1, 1 + 0x1p-20, 1 + 0x1p-20 + 0x1p-52, 6000, 0x1p1000, 0x1.fffffffffffffp1023, 0x1p-1074, 0};
    double sign = k % 2 == 0 ? 1 : -1;
    return sign * (k / 2 < 8 ? LIST[k / 2] : k / 2 == 8 ? infinite() : not_a_number());
}

static double *place_at(size_t dimension, size_t k)
{
    return coordinates_place + k % 3 % dimension * POINTS + k / 3;
}

static Outcome get_curvature_coefficients_at_coordinates(size_t k)
{
    size_t dimension = 1 + take(&k, 3);
    Trial t = plain(dimension, 2, POINTS);
    size_t place = take(&k, PLACES);
    t.odd[0] = (Odd){place_at(dimension, place), reference_at(take(&k, REFERENCES))};
    double *next = place_at(dimension, (place + 4) % PLACES);
    switch (take(&k, OTHERS)) {
    case 0: break;
    case 1: t.odd[1] = (Odd){next, not_a_number()}; break;
    case 2: t.odd[1] = (Odd){next, -infinite()}; break;
    default: t.odd[1] = (Odd){polynomials_place + 1, not_a_number()}; break;
    }
    t.side = side_at(k);
    return call(&t);
}

/* FAULTS: every set of the six, the buffer whose length is wrong, short or long; and the place of the coordinate that is not finite. */
enum { SETS = 64, AT_FAULTS = SETS * BUFFERS * 2 * POINTS };

static Outcome get_curvature_coefficients_with_faults(size_t k)
{
    size_t faults = take(&k, SETS);
    Trial t = plain((faults & 1) != 0 ? 4 : 1, (faults & 2) != 0 ? 17 : 1, (faults & 4) != 0 ? MOST + 1 : POINTS);
    size_t buffer = take(&k, BUFFERS);
    size_t digit = 1 + take(&k, 2);
    t.digits[buffer] = (faults & 8) != 0 ? digit : 0;
    t.side = (faults & 16) != 0 ? 0 : t.side;
    if ((faults & 32) != 0) {
        t.odd[0] = (Odd){coordinates_place + k, (double[]){not_a_number(), infinite(), -infinite()}[k]};
    }
    return call(&t);
}

void walk_curvature(void)
{
    Buffer *const lent[] = {&polynomials, &coordinates, &curvatures, &factors, &slopes, &bends, &room};
    WALK("get_curvature_coefficients", CELLS + LENGTHS, get_curvature_coefficients, lent);
    WALK("get_curvature_coefficients_at_coordinates", AT_COORDINATES, get_curvature_coefficients_at_coordinates, lent);
    WALK("get_curvature_coefficients_with_faults", AT_FAULTS, get_curvature_coefficients_with_faults, lent);
}
