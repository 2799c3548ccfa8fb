/* Holds bbfmm_graham_ratios to its rule on maps that are drawn: every shape, air as it is, special values in every gas, floors at a
   deficiency and beside it, many points, no points, and faults alone and together. Prints a line, and ends with 1 where something
   differs. */
#include "../distances/draw.h"
#include "hold.h"

int printf(const char *format, ...);

enum { SMALL_MAPS = 120000 };

/* NUMBERS. No expression draws twice, so that every compiler draws the same. */

static double infinite(void)
{
    return float_of(0x7ff0000000000000);
}

/* A float with either sign. */
static double with_sign(double x)
{
    return float_of(bits_of(x) ^ draw_below(2) << 63);
}

/* From -1 to 1. */
static double draw_inside(void)
{
    return (double)(draw() >> 10) * 0x1p-53 - 1;
}

/* NaNs of both kinds, infinities, zeros, the ends of the ranges, what overflows beside another, and one. */
static double draw_special(void)
{
    static const uint64_t SIZES[11] = {0x7ff8000000000000, 0x7ff0000000000001, 0x7ff0000000000000, 0, 1, 0xfffffffffffff,
        0x10000000000000, 0x7fefffffffffffff, 0x7fe1ccf385ebc8a0, 0x7fd0000000000000, 0x3ff0000000000000};
    return with_sign(float_of(SIZES[draw_below(11)]));
}

static double draw_not_finite(void)
{
    static const uint64_t SIZES[3] = {0x7ff8000000000000, 0x7ff0000000000001, 0x7ff0000000000000};
    return with_sign(float_of(SIZES[draw_below(3)]));
}

/* Of either sign, with any number of leading zeros. */
static double draw_subnormal(void)
{
    uint64_t bits = draw();
    return with_sign(float_of(bits >> (12 + draw_below(52))));
}

/* Ten to the power of 0 to -9. */
static double draw_scale(void)
{
    double scale = 1;
    for (size_t k = draw_below(10); k > 0; k--) {
        scale *= 0.1;
    }
    return scale;
}

/* THE CELL and its points */

static double draw_length(void)
{
    switch (draw_below(16)) {
    case 0: return 0x1p-20;
    case 1: return 0x1p30;
    case 2: return 2;
    default: return float_of(bits_of(0x1p-20) + draw_below(bits_of(0x1p30) - bits_of(0x1p-20)));
    }
}

static double draw_centre(double length)
{
    switch (draw_below(8)) {
    case 0: return draw_inside() * length * 1000;
    case 1: return with_sign(0x1p40);
    case 2: return draw_subnormal();
    case 3: return 7;
    case 4: return draw_inside() * length;
    default: return 0;
    }
}

/* The border is 1 + 2^-20; about a centre that is 0 a point can be put right there. */
static double draw_coordinate(double centre, double half)
{
    switch (draw_below(12)) {
    case 0: return centre;
    case 1: return centre + with_sign(half);
    case 2: return centre == 0 ? with_sign(half * (1 + 0x1p-20)) : centre;
    case 3: return centre == 0 ? draw_subnormal() : centre;
    case 4: return centre + with_sign(half * draw_scale());
    default: return centre + draw_inside() * half;
    }
}

static void draw_points(const Map *map)
{
    for (size_t axis = 0; axis < map->dimension; axis++) {
        drawn.centre[axis] = draw_centre(map->length);
        for (size_t i = 0; i < map->rows; i++) {
            drawn.points[axis * map->rows + i] = draw_coordinate(drawn.centre[axis], map->length * 0.5);
        }
    }
}

/* The Chebyshev nodes' own, most often; from -1 to 1; special ones among these; any bits. */
static void draw_polynomials(size_t order)
{
    static double nodes[ORDERS], none[1];
    size_t kind = draw_below(12);
    bbfmm_generate_chebyshev_nodes(order, nodes, order);
    bbfmm_evaluate_chebyshev_polynomials(order, order, nodes, order, false, drawn.polynomials, order * order, none, 0);
    for (size_t i = 0; i < order * order && kind < 3; i++) {
        bool is_special = kind == 1 && draw_below(8) == 0;
        drawn.polynomials[i] = is_special ? draw_special() : kind == 2 ? float_of(draw()) : draw_inside();
    }
}

/* THE GASES */

typedef enum { WHOLE, INSIDE, TINY, HUGE_ONES, ANY_BITS, SPECIAL, CONSTANT, ENTRY_KINDS } EntryKind;

static double draw_entry(EntryKind kind, double constant)
{
    switch (kind) {
    case WHOLE: return (double)draw_below(5) - 2;
    case INSIDE: return draw_inside();
    case TINY: return draw_subnormal();
    case HUGE_ONES: return draw_inside() * 0x1p1023;
    case ANY_BITS: return float_of(draw());
    case SPECIAL: return draw_special();
    default: return constant;
    }
}

static void fill_gas(size_t gas, size_t nodes, EntryKind kind)
{
    double constant = draw_inside() * 100;
    for (size_t n = 0; n < nodes; n++) {
        drawn.gases[gas][n] = draw_entry(kind, constant);
    }
}

/* In hundredths: some carbon monoxide, nitrogen about 79, and oxygen about what the nitrogen says, or far from it. */
static void fill_with_air(size_t nodes)
{
    double spread = draw_scale();
    double missing = draw_below(2) == 0 ? 0 : 20 * draw_inside();
    for (size_t n = 0; n < nodes; n++) {
        double nitrogen = 79 + spread * draw_inside();
        drawn.gases[0][n] = 0.01 * (1 + draw_inside());
        drawn.gases[1][n] = nitrogen;
        drawn.gases[2][n] = 0.265 * nitrogen - missing + spread * draw_inside();
    }
}

/* A few entries of any gas become special. */
static void spoil(size_t nodes)
{
    for (size_t k = 1 + draw_below(3); k > 0; k--) {
        double *gas = drawn.gases[draw_below(3)];
        double *entry = gas + draw_below(nodes);
        *entry = draw_special();
    }
}

static void draw_gases(size_t nodes)
{
    if (draw_below(2) == 0) {
        fill_with_air(nodes);
    } else {
        EntryKind kind = (EntryKind)draw_below(ENTRY_KINDS);
        for (size_t gas = 0; gas < 3; gas++) {
            fill_gas(gas, nodes, kind);
        }
    }
    if (draw_below(4) == 0) {
        size_t gas = draw_below(3);
        fill_gas(gas, nodes, (EntryKind)draw_below(ENTRY_KINDS));
    }
    if (draw_below(4) == 0) {
        spoil(nodes);
    }
}

static double draw_floor(void)
{
    static const double FLOORS[8] = {0.1, 1e-6, 0x1p-1074, 0x1p-1022, 1, 10, 0x1.fffffffffffffp1023, 0x1p-30};
    size_t k = draw_below(12);
    return k < 8 ? FLOORS[k] : float_of(1 + draw_below(0x7fefffffffffffff));
}

/* FAULTS */

/* Just past the border, or further. About a large centre the point can end up inside: the rule says what that gives. */
static void put_outside(const Map *map)
{
    size_t place = draw_below(map->dimension * map->rows);
    double centre = drawn.centre[place / map->rows];
    double half = map->length * 0.5;
    const double far[4] = {half * (1 + 0x1p-20 + 0x1p-52), 3 * half, 6000 * half, 0x1.fffffffffffffp1023};
    drawn.points[place] = centre + with_sign(far[draw_below(4)]);
}

static void put_fault(Map *map)
{
    const double floors[8] = {0, -0.0, -1, -0x1p-1074, infinite(), -infinite(), -0x1.fffffffffffffp1023, infinite() - infinite()};
    const double lengths[6] = {0, -1, 0x1.fffffffffffffp-21, 0x1.0000000000001p30, infinite(), infinite() - infinite()};
    bool has_points = map->rows > 0;
    double not_finite = draw_not_finite();
    switch (draw_below(has_points ? 9 : 7)) {
    case 0: map->told_dimension = (size_t[]){0, 4, (size_t)-1}[draw_below(3)]; break;
    case 1: map->told_order = (size_t[]){0, 17, (size_t)-1}[draw_below(3)]; break;
    case 2: map->told_rows = (size_t[]){4097, (size_t)-1}[draw_below(2)]; break;
    case 3: map->wrong_buffer = draw_below(BUFFERS), map->is_longer = draw_below(2) == 0; break;
    case 4: map->length = lengths[draw_below(6)]; break;
    case 5: drawn.centre[draw_below(map->dimension)] = not_finite; break;
    case 6: map->floor = floors[draw_below(8)]; break;
    case 7: drawn.points[draw_below(map->dimension * map->rows)] = not_finite; break;
    default: put_outside(map); break;
    }
}

/* MAPS */

static size_t power(size_t base, size_t exponent)
{
    return exponent == 0 ? 1 : base * power(base, exponent - 1);
}

/* A map of this shape, in which so many things go wrong. */
static void try_drawn(size_t dimension, size_t order, size_t rows, FloorKind floor_kind, size_t faults)
{
    Map map = {dimension, order, rows, dimension, order, rows, 0, 0, floor_kind, 0, BUFFERS, false};
    map.length = draw_length();
    map.floor = draw_floor();
    map.floor_point = draw_below(POINTS);
    draw_points(&map);
    draw_polynomials(order);
    draw_gases(power(order, dimension));
    for (size_t k = 0; k < faults; k++) {
        put_fault(&map);
    }
    try_map(&map);
}

static void try_small(void)
{
    static const size_t ORDER[AXES + 1] = {0, 16, 4, 3};
    size_t dimension = 1 + draw_below(AXES);
    size_t order = 1 + draw_below(ORDER[dimension]);
    size_t rows = draw_below(32) == 0 ? 0 : 1 + draw_below(6);
    size_t faults = draw_below(10) > 0 ? 0 : 1 + draw_below(3);
    try_drawn(dimension, order, rows, (FloorKind)draw_below(FLOOR_KINDS), faults);
}

/* Every shape, with up to two points and each kind of floor. */
static void try_shapes(void)
{
    for (size_t dimension = 1; dimension <= AXES; dimension++) {
        for (size_t order = 1; order <= ORDERS; order++) {
            for (size_t kind = 0; kind < FLOOR_KINDS; kind++) {
                try_drawn(dimension, order, kind % 3, (FloorKind)kind, 0);
            }
        }
    }
}

/* Many points, many nodes, and once as many of both as there can be. */
static size_t try_large(void)
{
    static const size_t LARGE[7][3] = {{1, 1, 4096}, {1, 16, 4096}, {2, 16, 512}, {3, 4, 4096}, {3, 5, 77}, {3, 6, 1000}, {3, 16, 64}};
    for (size_t k = 0; k < 7; k++) {
        for (size_t kind = 0; kind < FLOOR_KINDS; kind++) {
            try_drawn(LARGE[k][0], LARGE[k][1], LARGE[k][2], (FloorKind)kind, 0);
        }
    }
    try_drawn(AXES, ORDERS, POINTS, EQUAL, 0);
    return 7 * FLOOR_KINDS + 1;
}

/* Everything that is counted must have come, or the maps were not the right ones. */
static bool is_all_met(void)
{
    static const uint8_t NUMBERS[9] = {0, 1, 2, 3, 7, 8, 9, 11, 12};
    bool are = tally.overflows > 0 && tally.negative > 0;
    for (size_t k = 0; k < 9; k++) {
        are = are && tally.numbers[NUMBERS[k]] > 0;
    }
    for (size_t k = 0; k < 3; k++) {
        are = are && tally.answers[k] > 0 && tally.about_floor[k] > 0;
    }
    for (size_t k = 0; k < AXES * ORDERS; k++) {
        are = are && tally.shapes[1 + k / ORDERS][1 + k % ORDERS];
    }
    return are;
}

int main(void)
{
    try_shapes();
    for (size_t k = 0; k < SMALL_MAPS; k++) {
        try_small();
    }
    size_t large = try_large();
    const size_t *n = tally.numbers;
    printf("tests/ratios: %zu calls, %zu of them large; %zu points, with a ratio: %zu, unusable: %zu and %zu by the ratio alone, ",
        tally.calls, large, tally.points, tally.answers[0], tally.answers[1] - tally.overflows, tally.overflows);
    printf("fresh: %zu and %zu below 0; deficiencies at the floor: %zu, the float below it: %zu, above it: %zu; ",
        tally.answers[2] - tally.negative, tally.negative, tally.about_floor[1], tally.about_floor[0], tally.about_floor[2]);
    printf("refused with 1: %zu, 2: %zu, 3: %zu, 7: %zu, 8: %zu, 9: %zu, 11: %zu, 12: %zu; ", n[1], n[2], n[3], n[7], n[8], n[9], n[11],
        n[12]);
    if (tally.faults > 0 || !is_all_met()) {
        printf("%zu differences%s\n", tally.faults, is_all_met() ? "" : ", and not everything was met");
        return 1;
    }
    printf("all equal\n");
    return 0;
}
