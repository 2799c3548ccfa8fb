/* Ratio maps. The lengths of the ten buffers are walked, each for itself, with one cell; then the parameters, with all buffers alike,
   exact, short, long or empty. Then every floor; every coordinate of the points and of the centre, from what is not finite to the
   border of the cell; and every set of faults, of which the lowest number counts. */
#include "walk.h"

int memcmp(const void *left, const void *right, size_t bytes);

enum { BUFFERS = 10, MOST = 4096 };

BUFFER(centre, double, 8, 7);
BUFFER(polynomials, double, 300, 7);
BUFFER(points, double, 12300, 7);
BUFFER(carbon_monoxide, double, 4100, 7);
BUFFER(nitrogen, double, 4100, 7);
BUFFER(oxygen, double, 4100, 7);
BUFFER(values, double, 4100, 7);
BUFFER(factors, double, 12300, 7);
BUFFER(answers, uint8_t, 4100, 77);
BUFFER(ratios, double, 4100, 7);

/* What a call is told. Points and centre are the pattern, so that each point is in the middle of the cell, but for odd coordinates. */
typedef struct {
    size_t dimension, order;
    double side;
    size_t rows;
    double floor;
    size_t digits[BUFFERS];
    Odd odd[2];
} Trial;

/* THE NUMBER, by documents 01 to 03 */

static bool lend_all(const Trial *t)
{
    size_t nodes = power(t->dimension, t->order);
    bool fits = lend(&centre, t->dimension, t->digits[0]);
    fits = lend(&polynomials, product(t->order, t->order), t->digits[1]) && fits;
    fits = lend(&points, product(t->dimension, t->rows), t->digits[2]) && fits;
    fits = lend(&carbon_monoxide, nodes, t->digits[3]) && fits;
    fits = lend(&nitrogen, nodes, t->digits[4]) && fits;
    fits = lend(&oxygen, nodes, t->digits[5]) && fits;
    fits = lend(&values, product(nodes, t->rows), t->digits[6]) && fits;
    fits = lend(&factors, product(product(t->dimension, t->order), t->rows), t->digits[7]) && fits;
    fits = lend(&answers, t->rows, t->digits[8]) && fits;
    return lend(&ratios, t->rows, t->digits[9]) && fits;
}

static bool is_in_cell(const Trial *t, size_t axis, size_t row)
{
    double x = (points_place[axis * t->rows + row] - centre_place[axis]) / (t->side * 0.5);
    return -1 - 0x1p-20 <= x && x <= 1 + 0x1p-20;
}

static uint8_t of_coordinates(const Trial *t)
{
    for (size_t i = 0; i < points.length; i++) {
        if (!is_finite(points_place[i])) {
            return BBFMM_NOT_FINITE;
        }
    }
    for (size_t axis = 0; axis < centre.length; axis++) {
        if (!is_finite(centre_place[axis])) {
            return BBFMM_NOT_FINITE;
        }
    }
    for (size_t i = 0; i < points.length; i++) {
        if (!is_in_cell(t, i / t->rows, i % t->rows)) {
            return BBFMM_OUT_OF_CELL;
        }
    }
    return 0;
}

static uint8_t number_of(const Trial *t, bool fits)
{
    uint8_t number = first(of_shape(t->dimension, t->order), unless(t->rows <= MOST, BBFMM_NO_COUNT));
    number = first(number, unless(fits, BBFMM_WRONG_LENGTH));
    number = first(number, unless(0x1p-20 <= t->side && t->side <= 0x1p30, BBFMM_NO_CELL));
    number = number != 0 ? number : of_coordinates(t);
    return first(number, unless(is_finite(t->floor) && t->floor > 0, BBFMM_NO_FLOOR));
}

/* A CALL */

/* After a refusal the odd coordinates must be there still, and the centre's always. Answers whether one is not. */
static bool take_both(const Trial *t, bool is_refused)
{
    bool is_changed = false;
    for (size_t k = 0; k < 2; k++) {
        const double *place = t->odd[k].place;
        bool is_of_centre = centre_place <= place && place < centre_place + centre.room;
        is_changed = take_odd(&t->odd[k], is_refused || is_of_centre) || is_changed;
    }
    return is_changed;
}

/* After a call that was done, each point is a reference coordinate; a ratio stands where the answer says so, and only there; and
   what is only read is as it was. Answers whether something is not so. The coordinates were worked out before the call. */
static bool is_anything_else(size_t rows, const double *coordinates)
{
    static const double PATTERN = 7;
    Buffer *const only_read[4] = {&polynomials, &carbon_monoxide, &nitrogen, &oxygen};
    bool is = memcmp(points_place, coordinates, points.length * sizeof *coordinates) != 0;
    for (size_t i = 0; i < rows; i++) {
        bool is_lent = memcmp(&ratios_place[i], &PATTERN, sizeof PATTERN) == 0;
        is = is || answers_place[i] > BBFMM_AIR_FRESH || is_lent != (answers_place[i] != BBFMM_AIR_RATIO);
    }
    for (size_t k = 0; k < 4; k++) {
        const double *place = only_read[k]->place;
        for (size_t i = 0; i < only_read[k]->length; i++) {
            is = is || memcmp(&place[i], &PATTERN, sizeof PATTERN) != 0;
        }
    }
    return is;
}

static Outcome call(const Trial *t)
{
    static double coordinates[3 * MOST];
    bool fits = lend_all(t);
    put_odd(&t->odd[0]);
    put_odd(&t->odd[1]);
    uint8_t expected = number_of(t, fits);
    for (size_t i = 0; expected == 0 && i < points.length; i++) {
        coordinates[i] = (points_place[i] - centre_place[i / t->rows]) / (t->side * 0.5);
    }
    uint8_t number = bbfmm_graham_ratios(
        t->dimension, t->order, t->side, t->rows, t->floor, LENT(centre), LENT(polynomials), LENT(points), LENT(carbon_monoxide),
        LENT(nitrogen), LENT(oxygen), LENT(values), LENT(factors), LENT(answers), LENT(ratios));
    bool is_changed = number == 0 && expected == 0 && is_anything_else(t->rows, coordinates);
    is_changed = take_both(t, number != 0) || is_changed;
    return (Outcome){expected, number, is_changed};
}

/* A cell and points that nothing is wrong with. */
static Trial plain(size_t dimension, size_t order, size_t rows)
{
    return (Trial){dimension, order, 1, rows, 0.5, {0}, {{0, 0}, {0, 0}}};
}

/* LENGTHS: four for each of ten buffers. No two have the same exact length, but for the gases, and for answers and ratios. */
enum { LENGTHS = 4 * 4 * 4 * 4 * 4 * 4 * 4 * 4 * 4 * 4 };
static Outcome graham_ratios(size_t k)
{
    Trial t = plain(3, 2, 5);
    for (size_t i = 0; i < BUFFERS; i++) {
        t.digits[i] = take(&k, 4);
    }
    return call(&t);
}

/* CELLS: six dimensions, six orders, six counts of rows, eight sides, four lengths for all buffers; and coordinates and floor in eight
   ways, of which seven are wrong. */
enum { WAYS = 8, CELLS = 6 * 6 * 8 * 6 * WAYS * 4 };

static void go_wrong(Trial *t, size_t way)
{
    const double outside = 9;
    switch (way) {
    case 0: break;
    case 1: t->odd[0].place = points_place, t->odd[0].x = not_a_number(); break;
    case 2: t->odd[0].place = centre_place, t->odd[0].x = infinite(); break;
    case 3: t->odd[0].place = points_place, t->odd[0].x = outside * t->side; break;
    case 4: t->floor = 0; break;
    case 5: t->odd[0].place = points_place, t->odd[0].x = -infinite(), t->floor = not_a_number(); break;
    case 6: t->odd[0].place = points_place, t->odd[0].x = -outside * t->side, t->floor = infinite(); break;
    default: t->odd[0].place = centre_place, t->odd[0].x = not_a_number(), t->floor = -1; break;
    }
}

static Outcome graham_ratios_in_cells(size_t k)
{
    size_t dimension = dimension_at(take(&k, 6));
    size_t order = order_at(take(&k, 6));
    Trial t = plain(dimension, order, rows_at(take(&k, 6)));
    t.side = side_at(take(&k, 8));
    go_wrong(&t, take(&k, WAYS));
    for (size_t i = 0; i < BUFFERS; i++) {
        t.digits[i] = k;
    }
    return call(&t);
}

/* FLOORS: sixteen of them, three dimensions, none to four points, three sides; and an entry too many in one of ten buffers, no fault, or
   one of two coordinates at fault. */
enum { FLOORS = 16, AT_FLOORS = FLOORS * 3 * 5 * 3 * (BUFFERS + 3) };

static double floor_at(size_t k)
{
    static const double LIST[6] = {0, 0x1p-1074, 0x1p-1022, 0.5, 0x1.fffffffffffffp1023, 0x0.fffffffffffffp-1022};
    double sign = k % 2 == 0 ? 1 : -1;
    return sign * (k / 2 < 6 ? LIST[k / 2] : k / 2 == 6 ? infinite() : not_a_number());
}

static Outcome graham_ratios_at_floors(size_t k)
{
    double floor = floor_at(take(&k, FLOORS));
    size_t dimension = 1 + take(&k, 3);
    size_t rows = take(&k, 5);
    Trial t = plain(dimension, 2, rows);
    t.floor = floor;
    t.side = (double[]){0x1p-20, 1, 0x1p30}[take(&k, 3)];
    if (k < BUFFERS) {
        t.digits[k] = 2;
    } else if (k == BUFFERS + 1) {
        t.odd[0].place = centre_place + dimension - 1;
        t.odd[0].x = -infinite();
    } else if (k == BUFFERS + 2 && rows > 0) {
        t.odd[0].place = points_place + dimension * rows - 1;
        t.odd[0].x = 0x1p40;
    }
    return call(&t);
}

/* COORDINATES: one of three points or of the centre, in three dimensions; what it is; another that may be odd too; three sides; and
   three floors. */
enum { POINTS = 3, PLACES = 4 * 3, COORDINATES = 22, OTHERS = 4, AT_COORDINATES = 3 * PLACES * COORDINATES * OTHERS * 3 * 3 };

static double *place_at(size_t dimension, size_t k)
{
    size_t axis = k % 3 % dimension;
    return k / 3 < POINTS ? points_place + axis * POINTS + k / 3 : centre_place + axis;
}

static Outcome graham_ratios_at_coordinates(size_t k)
{
    Trial t = plain(1 + take(&k, 3), 2, POINTS);
    size_t place = take(&k, PLACES);
    size_t what = take(&k, COORDINATES);
    size_t other = take(&k, OTHERS);
    t.side = (double[]){0x1p-20, 1, 0x1p30}[take(&k, 3)];
    t.floor = (double[]){0.5, 0, not_a_number()}[k];
    t.odd[0].place = place_at(t.dimension, place);
    t.odd[0].x = coordinate_at(what, t.side * 0.5);
    if (other > 0) {
        t.odd[1].place = place_at(t.dimension, (place + 5) % PLACES);
        t.odd[1].x = (double[]){0, not_a_number(), infinite(), 7 + 2 * t.side}[other];
    }
    return call(&t);
}

/* FAULTS: every set of the eight, the buffer whose length is wrong, short or long; the coordinate that is not finite is a point's, before
   or behind the one outside, or the centre's. */
enum { SETS = 256, AT_FAULTS = SETS * BUFFERS * 2 * 3 };

static Outcome graham_ratios_with_faults(size_t k)
{
    size_t faults = take(&k, SETS);
    size_t buffer = take(&k, BUFFERS);
    size_t digit = 1 + take(&k, 2);
    Trial t = plain(1, 1, (faults & 4) != 0 ? MOST + 1 : POINTS);
    t.dimension = (faults & 1) != 0 ? 4 : t.dimension;
    t.order = (faults & 2) != 0 ? 17 : t.order;
    t.digits[buffer] = (faults & 8) != 0 ? digit : 0;
    t.side = (faults & 16) != 0 ? 0 : t.side;
    if ((faults & 32) != 0) {
        t.odd[0].place = (double *[]){points_place, points_place + 2, centre_place}[k];
        t.odd[0].x = (double[]){not_a_number(), infinite(), -infinite()}[k];
    }
    if ((faults & 64) != 0) {
        t.odd[1].place = points_place + 1;
        t.odd[1].x = 8;
    }
    t.floor = (faults & 128) != 0 ? 0 : t.floor;
    return call(&t);
}

void walk_ratios(void)
{
    Buffer *const lent[] = {
        &centre, &polynomials, &points, &carbon_monoxide, &nitrogen, &oxygen, &values, &factors, &answers, &ratios};
    WALK("graham_ratios", LENGTHS, graham_ratios, lent);
    WALK("graham_ratios_in_cells", CELLS, graham_ratios_in_cells, lent);
    WALK("graham_ratios_at_floors", AT_FLOORS, graham_ratios_at_floors, lent);
    WALK("graham_ratios_at_coordinates", AT_COORDINATES, graham_ratios_at_coordinates, lent);
    WALK("graham_ratios_with_faults", AT_FAULTS, graham_ratios_with_faults, lent);
}
