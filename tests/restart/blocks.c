/* Holds bbfmm_aca_partial_pivoting in both modes to its rule: every small block of -1, 0 and 1, every block of two rows and two columns
   of special values, drawn blocks of many kinds, a few large ones, and blocks with pivots where words of flags end. Prints a line, and
   ends with 1 where something differs. */
#include "../distances/draw.h"
#include "hold.h"

int printf(const char *format, ...);

/* How many rows and columns a drawn block has at most, and how many such blocks there are. */
enum { SMALL = 12, SMALL_BLOCKS = 120000, LARGER = 64, LARGER_BLOCKS = 300 };

/* The pivot that is just large enough, and the float below it. */
static const double LEAST = 0x1p-52;
static const double TOO_SMALL = 0x1.fffffffffffffp-53;

/* The block's rows and columns, while it is drawn. */
static size_t rows, columns;

/* EVERY BLOCK of so many rows and columns with entries of a list, at four tolerances */

static size_t try_every(size_t m, size_t n, const double *entries, size_t count)
{
    const double epsilons[4] = {0, 0.5, 1, float_of(0x7ff8000000000000)};
    size_t blocks = 1;
    for (size_t i = 0; i < m * n; i++) {
        blocks *= count;
    }
    for (size_t k = 0; k < blocks; k++) {
        size_t digits = k;
        for (size_t i = 0; i < m * n; i++) {
            block[i] = entries[digits % count];
            digits /= count;
        }
        for (size_t e = 0; e < 4; e++) {
            try_block(m, n, epsilons[e]);
        }
    }
    return blocks;
}

static size_t try_whole_numbers(void)
{
    const double entries[3] = {-1, 0, 1};
    return try_every(2, 2, entries, 3) + try_every(2, 3, entries, 3) + try_every(3, 2, entries, 3);
}

/* Of 49 a little is left where its own term is taken off. */
static size_t try_special_values(void)
{
    const double entries[9] = {
        0, -0.0, 49, LEAST, -TOO_SMALL, 0x1p-1074, 1e155, float_of(0x7ff0000000000000), float_of(0xfff0000000000001)};
    return try_every(1, 1, entries, 9) + try_every(2, 1, entries, 9) + try_every(1, 2, entries, 9) + try_every(2, 2, entries, 9);
}

/* DRAWN ENTRIES */

static double draw_sign(void)
{
    return draw_below(2) == 0 ? 1 : -1;
}

/* From -1 to 1. */
static double draw_inside(void)
{
    return (double)(draw() >> 10) * 0x1p-53 - 1;
}

static double draw_whole(void)
{
    return (double)draw_below(5) - 2;
}

/* NaNs of both kinds, infinities, zeros, the ends of the ranges, and what overflows when it is squared. */
static double draw_special(void)
{
    static const uint64_t SIZES[10] = {0x7ff8000000000000, 0x7ff0000000000001, 0x7ff0000000000000, 0, 1, 0xfffffffffffff,
        0x10000000000000, 0x7fefffffffffffff, 0x6030000000000000, 0x3ff0000000000000};
    return float_of(SIZES[draw_below(10)] | draw_below(2) << 63);
}

/* About the least pivot, on both sides of it and at it. */
static double draw_about_least(void)
{
    const double sizes[7] = {LEAST, TOO_SMALL, 0x1.0000000000001p-52, 0x1p-53, 0x1p-51, 0, 0x1p-1074};
    return draw_sign() * sizes[draw_below(7)];
}

/* What changes 1 by steps of its last digit, so that the least pivot is left, or half of it. */
static double draw_near_one(void)
{
    const double entries[5] = {1, 1, 1 - 0x1p-53, 1 + 0x1p-52, 1 - 0x1p-52};
    return entries[draw_below(5)];
}

/* What does not come to 1 when it is multiplied with its inverse, and what does. */
static double draw_unequal(void)
{
    const double entries[6] = {49, 98, 103, 107, 1, 3};
    return draw_sign() * entries[draw_below(6)];
}

/* Kinds of entries; the last one has special values among whole numbers. */
typedef enum { WHOLE, INSIDE, SPECIAL, ABOUT_LEAST, NEAR_ONE, UNEQUAL, ANY_BITS, MIXED, ENTRY_KINDS } EntryKind;

static double draw_entry(EntryKind kind)
{
    switch (kind) {
    case WHOLE: return draw_whole();
    case INSIDE: return draw_inside();
    case SPECIAL: return draw_special();
    case ABOUT_LEAST: return draw_about_least();
    case NEAR_ONE: return draw_near_one();
    case UNEQUAL: return draw_unequal();
    case ANY_BITS: return float_of(draw());
    default: return draw_below(4) == 0 ? draw_special() : draw_whole();
    }
}

/* DRAWN BLOCKS */

static void fill_with(EntryKind kind)
{
    for (size_t i = 0; i < rows * columns; i++) {
        block[i] = draw_entry(kind);
    }
}

static void set_row(size_t i, double x)
{
    for (size_t j = 0; j < columns; j++) {
        block[i + j * rows] = x;
    }
}

static void set_column(size_t j, double x)
{
    for (size_t i = 0; i < rows; i++) {
        block[i + j * rows] = x;
    }
}

/* Many rows and columns become zeros, now and then NaN. */
static void blank(void)
{
    for (size_t i = 0; i < rows; i++) {
        if (draw_below(3) == 0) {
            set_row(i, draw_below(8) == 0 ? float_of(0x7ff8000000000000) : 0 * draw_sign());
        }
    }
    for (size_t j = 0; j < columns; j++) {
        if (draw_below(4) == 0) {
            set_column(j, draw_below(16) == 0 ? float_of(0x7ff8000000000000) : 0 * draw_sign());
        }
    }
}

/* Many rows become another row times a small number. */
static void repeat_rows(void)
{
    for (size_t i = 1; i < rows; i++) {
        size_t from = draw_below(i);
        double factor = draw_whole();
        for (size_t j = 0; j < columns && draw_below(16) > 0; j++) {
            block[i + j * rows] = block[from + j * rows] * factor;
        }
    }
}

/* Most entries become zeros. */
static void thin_out(void)
{
    for (size_t i = 0; i < rows * columns; i++) {
        if (draw_below(4) > 0) {
            block[i] = 0;
        }
    }
}

/* At most an entry a row, in drawn columns. */
static void keep_one_a_row(void)
{
    for (size_t i = 0; i < rows; i++) {
        size_t kept = draw_below(columns + 1);
        for (size_t j = 0; j < columns; j++) {
            if (j != kept) {
                block[i + j * rows] = 0;
            }
        }
    }
}

/* At most one entry of all. */
static void keep_one(void)
{
    size_t kept = draw_below(rows * columns + 1);
    for (size_t i = 0; i < rows * columns; i++) {
        if (i != kept) {
            block[i] = 0;
        }
    }
}

/* A sum of one to three products of a column and a row. */
static void fill_with_products(void)
{
    static double factors[2][LARGER];
    EntryKind kind = draw_below(2) == 0 ? WHOLE : INSIDE;
    size_t count = 1 + draw_below(3);
    for (size_t i = 0; i < rows * columns; i++) {
        block[i] = 0;
    }
    for (size_t k = 0; k < count; k++) {
        for (size_t i = 0; i < LARGER; i++) {
            factors[0][i] = draw_entry(kind);
            factors[1][i] = draw_entry(kind);
        }
        for (size_t i = 0; i < rows * columns; i++) {
            block[i] += factors[0][i % rows] * factors[1][i / rows];
        }
    }
}

enum { BLOCK_KINDS = 12 };
static void draw_block(size_t kind)
{
    fill_with((EntryKind)draw_below(ENTRY_KINDS));
    switch (kind) {
    case 0: break;
    case 1: blank(); break;
    case 2: thin_out(); break;
    case 3: keep_one_a_row(); break;
    case 4: keep_one(); break;
    case 5: repeat_rows(); break;
    case 6: repeat_rows(); blank(); break;
    case 7: fill_with(ABOUT_LEAST); repeat_rows(); break;
    case 8: fill_with(NEAR_ONE); break;
    case 9: fill_with(NEAR_ONE); blank(); break;
    case 10: fill_with_products(); break;
    default: fill_with_products(); blank(); break;
    }
}

static double draw_epsilon(void)
{
    const double epsilons[12] = {0, -0.0, 0.5, -0.5, 1, 2, 1e-3, 1e-6, 1e-12, 1e200, float_of(0x7ff0000000000000),
        float_of(0x7ff8000000000000)};
    size_t k = draw_below(16);
    return k < 12 ? epsilons[k] : k < 14 ? 0 : draw_inside();
}

static void try_drawn(size_t most)
{
    rows = draw_below(32) == 0 ? 0 : 1 + draw_below(most);
    columns = draw_below(32) == 0 ? 0 : 1 + draw_below(most);
    draw_block(draw_below(BLOCK_KINDS));
    try_block(rows, columns, draw_epsilon());
}

/* LARGE BLOCKS: nothing but zeros and a few rows at the end, the last of which is like the one before */

static void try_late(size_t m, size_t n)
{
    rows = m;
    columns = n;
    for (size_t i = 0; i < m * n; i++) {
        block[i] = 0;
    }
    for (size_t i = m < 5 ? 0 : m - 5; i < m; i++) {
        for (size_t j = 0; j < n; j++) {
            block[i + j * m] = i + 1 < m ? draw_inside() : block[i - 1 + j * m];
        }
    }
    try_block(m, n, 1e-9);
}

/* ENDS OF WORDS: flags are kept 64 a word. One pivot leads to the next from end to end: row r has its largest entry in column c, and of
   column c the largest entry that is left lies in the row that comes next. */

enum { ENDS = 6 };
static const size_t PLACES[ENDS] = {0, 63, 64, 127, 1022, 1023};

static size_t within(size_t place, size_t count)
{
    return place < count ? place : count - 1;
}

static void try_ends(size_t m, size_t n, size_t turned)
{
    rows = m;
    columns = n;
    for (size_t i = 0; i < m * n; i++) {
        block[i] = 0;
    }
    for (size_t k = 0; k < ENDS; k++) {
        size_t column = within(PLACES[(k + turned) % ENDS], n);
        block[within(PLACES[k], m) + column * m] = 8;
        if (k + 1 < ENDS) {
            block[within(PLACES[k + 1], m) + column * m] = 4;
        }
    }
    try_block(m, n, 0);
}

static size_t try_all_ends(void)
{
    static const size_t LINES[8] = {1, 63, 64, 65, 127, 128, 1023, 1024};
    for (size_t i = 0; i < 8; i++) {
        for (size_t j = 0; j < 8; j++) {
            for (size_t turned = 0; turned < ENDS; turned++) {
                try_ends(LINES[i], LINES[j], turned);
            }
        }
    }
    return 8 * 8 * ENDS;
}

static bool are_ends_met(void)
{
    bool are_met = true;
    for (size_t k = 0; k < ENDS; k++) {
        are_met = are_met && tally.rows[PLACES[k]] > 0 && tally.columns[PLACES[k]] > 0;
    }
    return are_met;
}

/* Everything that is counted must have come, or the blocks were not the right ones. */
static bool is_all_met(void)
{
    size_t(*s)[5] = tally.stops;
    bool are_stops_met = s[0][1] > 0 && s[0][2] > 0 && s[0][3] > 0 && s[1][1] > 0 && s[1][3] > 0 && s[1][4] > 0;
    return are_stops_met && are_ends_met() && tally.without_pivot > 0 && tally.alike > 0;
}

int main(void)
{
    size_t whole = try_whole_numbers();
    size_t special = try_special_values();
    for (size_t k = 0; k < SMALL_BLOCKS; k++) {
        try_drawn(SMALL);
    }
    for (size_t k = 0; k < LARGER_BLOCKS; k++) {
        try_drawn(LARGER);
    }
    try_late(LINE, 3);
    try_late(3, LINE);
    try_late(LINE, LINE);
    size_t ends = try_all_ends();
    size_t(*s)[5] = tally.stops;
    printf("tests/restart: %zu blocks of -1, 0 and 1, %zu of special values, %d drawn, 3 large, %zu with pivots at the ends of words; ",
        whole, special, SMALL_BLOCKS + LARGER_BLOCKS, ends);
    printf("%zu runs; ", tally.runs);
    printf("old mode, stops 1: %zu, 2: %zu, 3: %zu; ", s[0][1], s[0][2], s[0][3]);
    printf("restart mode, stops 1: %zu, 3: %zu, 4: %zu, %zu rows without a pivot, %zu runs as in the old mode; ", s[1][1], s[1][3],
        s[1][4], tally.without_pivot, tally.alike);
    if (tally.faults > 0 || !is_all_met()) {
        printf("%zu differences%s\n", tally.faults, is_all_met() ? "" : ", and not everything was met");
        return 1;
    }
    printf("all equal\n");
    return 0;
}
