/* Scaling points. The parameters are walked with four lengths for each of the two buffers; then every coordinate of the points and of
   the centre, from what is not finite to the border of the cell; and every set of faults, of which the lowest number counts. */
#include "walk.h"

int memcmp(const void *left, const void *right, size_t bytes);

enum { BUFFERS = 2, MOST = 4096 };

BUFFER(centre, double, 8, 7);
BUFFER(points, double, 12300, 7);

/* What a call is told. Points and centre are the pattern, so that each point is in the middle of the cell, but for odd coordinates. */
typedef struct {
    size_t dimension, rows;
    double side;
    size_t digits[BUFFERS];
    Odd odd[2];
} Trial;

/* THE NUMBER, by documents 01 to 03 */

static bool lend_all(const Trial *t)
{
    bool fits = lend(&centre, t->dimension, t->digits[0]);
    return lend(&points, product(t->dimension, t->rows), t->digits[1]) && fits;
}

static double reference_coordinate(const Trial *t, size_t i)
{
    return (points_place[i] - centre_place[i / t->rows]) / (t->side * 0.5);
}

static uint8_t of_coordinates(const Trial *t)
{
    bool are_finite = true;
    bool are_in_cell = true;
    for (size_t axis = 0; axis < centre.length; axis++) {
        are_finite = are_finite && is_finite(centre_place[axis]);
    }
    for (size_t i = 0; i < points.length; i++) {
        double x = reference_coordinate(t, i);
        are_finite = are_finite && is_finite(points_place[i]);
        are_in_cell = are_in_cell && -1 - 0x1p-20 <= x && x <= 1 + 0x1p-20;
    }
    return first(unless(are_finite, BBFMM_NOT_FINITE), unless(are_in_cell, BBFMM_OUT_OF_CELL));
}

static uint8_t number_of(const Trial *t, bool fits)
{
    uint8_t number = first(unless(1 <= t->dimension && t->dimension <= 3, BBFMM_NO_DIMENSION), unless(t->rows <= MOST, BBFMM_NO_COUNT));
    number = first(number, unless(fits, BBFMM_WRONG_LENGTH));
    number = first(number, unless(0x1p-20 <= t->side && t->side <= 0x1p30, BBFMM_NO_CELL));
    return number != 0 ? number : of_coordinates(t);
}

/* A CALL */

/* After a refusal the odd coordinates must be there still, and the centre's always. Answers whether one is not. */
static bool take_both(const Trial *t, bool is_refused)
{
    bool is_changed = false;
    for (size_t k = 0; k < 2; k++) {
        const double *place = t->odd[k].place;
        bool is_of_centre = centre_place <= place && place < centre_place + centre.room;
        is_changed = take_odd(&t->odd[k], is_refused || is_of_centre) || is_changed;
    }
    return is_changed;
}

/* Points that were taken must be reference coordinates, which were worked out before the call; and the centre is only read. */
static Outcome call(const Trial *t)
{
    static double right[3 * MOST];
    bool fits = lend_all(t);
    put_odd(&t->odd[0]);
    put_odd(&t->odd[1]);
    uint8_t expected = number_of(t, fits);
    for (size_t i = 0; expected == 0 && i < points.length; i++) {
        right[i] = reference_coordinate(t, i);
    }
    uint8_t number = bbfmm_scale_points(t->dimension, t->rows, t->side, LENT(centre), LENT(points));
    bool is_changed = number == 0 && expected == 0 && memcmp(points_place, right, points.length * sizeof right[0]) != 0;
    is_changed = take_both(t, number != 0) || is_changed;
    return (Outcome){expected, number, is_changed || !is_kept(&centre, centre.length)};
}

/* A cell and points that nothing is wrong with. */
static Trial plain(size_t dimension, size_t rows)
{
    return (Trial){dimension, rows, 1, {0}, {{0, 0}, {0, 0}}};
}

/* CELLS: six dimensions, six counts of rows, eight sides, four lengths for each of two buffers; and points and centre in four ways, of
   which three are wrong. */
enum { WAYS = 4, CELLS = 6 * 6 * 8 * WAYS * 4 * 4 };

static Outcome scale_points(size_t k)
{
    size_t dimension = dimension_at(take(&k, 6));
    Trial t = plain(dimension, rows_at(take(&k, 6)));
    t.side = side_at(take(&k, 8));
    switch (take(&k, WAYS)) {
    case 0: break;
    case 1: t.odd[0] = (Odd){points_place, not_a_number()}; break;
    case 2: t.odd[0] = (Odd){centre_place, infinite()}; break;
    default: t.odd[0] = (Odd){points_place, 7 + 2 * t.side}; break;
    }
    t.digits[0] = take(&k, 4);
    t.digits[1] = k;
    return call(&t);
}

/* COORDINATES: one of three points or of the centre, in three dimensions; what it is; another that may be odd too; and four sides, of
   which one is no power of two. */
enum { POINTS = 3, PLACES = 4 * 3, COORDINATES = 22, OTHERS = 4, AT_COORDINATES = 3 * PLACES * COORDINATES * OTHERS * 4 };

static double *place_at(size_t dimension, size_t k)
{
    size_t axis = k % 3 % dimension;
    return k / 3 < POINTS ? points_place + axis * POINTS + k / 3 : centre_place + axis;
}

static Outcome scale_points_at_coordinates(size_t k)
{
    Trial t = plain(1 + take(&k, 3), POINTS);
    size_t place = take(&k, PLACES);
    size_t what = take(&k, COORDINATES);
    size_t other = take(&k, OTHERS);
    t.side = (double[]){0x1p-20, 0.7, 1, 0x1p30}[k];
    t.odd[0] = (Odd){place_at(t.dimension, place), coordinate_at(what, t.side * 0.5)};
    if (other > 0) {
        double x = (double[]){0, not_a_number(), infinite(), 7 + 2 * t.side}[other];
        t.odd[1] = (Odd){place_at(t.dimension, (place + 5) % PLACES), x};
    }
    return call(&t);
}

/* FAULTS: every set of the six, the buffer whose length is wrong, short or long; the coordinate that is not finite is a point's, before
   or behind the one outside, or the centre's. */
enum { SETS = 64, AT_FAULTS = SETS * BUFFERS * 2 * 3 };

static Outcome scale_points_with_faults(size_t k)
{
    size_t faults = take(&k, SETS);
    size_t buffer = take(&k, BUFFERS);
    size_t digit = 1 + take(&k, 2);
    Trial t = plain((faults & 1) != 0 ? 4 : 1, (faults & 2) != 0 ? MOST + 1 : POINTS);
    t.digits[buffer] = (faults & 4) != 0 ? digit : 0;
    t.side = (faults & 8) != 0 ? 0 : t.side;
    if ((faults & 16) != 0) {
        double *place = (double *[]){points_place, points_place + 2, centre_place}[k];
        t.odd[0] = (Odd){place, (double[]){not_a_number(), infinite(), -infinite()}[k]};
    }
    if ((faults & 32) != 0) {
        t.odd[1] = (Odd){points_place + 1, 8};
    }
    return call(&t);
}

void walk_scaling(void)
{
    Buffer *const lent[] = {&centre, &points};
    WALK("scale_points", CELLS, scale_points, lent);
    WALK("scale_points_at_coordinates", AT_COORDINATES, scale_points_at_coordinates, lent);
    WALK("scale_points_with_faults", AT_FAULTS, scale_points_with_faults, lent);
}
