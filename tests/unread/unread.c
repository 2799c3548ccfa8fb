/* Runs drawn blocks, overwrites what the report does not list, and runs them again; fills blocks late; and shows that the test sees a
   changed entry that is listed. Prints a line, and ends with 1 where something differs. */
#include "../distances/draw.h"
#include "lend.h"

int printf(const char *format, ...);

/* How many rows and columns a drawn block has at most, how many such blocks there are, and how many faults are printed. */
enum { SMALL = 12, SMALL_BLOCKS = 12000, LARGER = 64, LARGER_BLOCKS = 400, PRINTED = 10 };

/* How the outside is overwritten: NaN, infinities of both signs, drawn bits, drawn numbers of the block's own kind, any of these. */
enum { FILLINGS = 5 };

static double full[LINE * LINE], changed[LINE * LINE];
static Room first, second;
static Listed listed;

static struct {
    size_t blocks, runs, stops[2][5], overwritten, kept, without_outside, late, turns, unfilled, seen, faults;
} tally;

static void fault(const Question *q, const char *what)
{
    if (tally.faults++ < PRINTED) {
        printf("%zu rows, %zu columns, epsilon %a, %s mode: %s\n", q->rows, q->columns, q->epsilon, q->restart ? "restart" : "old", what);
    }
}

/* DRAWING */

/* From -1 to 1. */
static double draw_inside(void)
{
    return (double)(draw() >> 10) * 0x1p-53 - 1;
}

static double draw_whole(void)
{
    return (double)draw_below(5) - 2;
}

/* NaNs of both kinds, infinities, zeros, the ends of the ranges, and the least pivot with its neighbours. */
static double draw_special(void)
{
    static const uint64_t SIZES[10] = {0x7ff8000000000000, 0x7ff0000000000001, 0x7ff0000000000000, 0, 1, 0x7fefffffffffffff,
        0x3cafffffffffffff, 0x3cb0000000000000, 0x3cb0000000000001, 0x4048800000000000};
    return float_of(SIZES[draw_below(10)] | draw_below(2) << 63);
}

static double draw_entry(size_t kind)
{
    switch (kind) {
    case 0: return draw_whole();
    case 1: return draw_inside();
    case 2: return draw_special();
    case 3: return draw_below(3) == 0 ? draw_whole() : 0;
    default: return draw_below(8) == 0 ? draw_special() : draw_whole();
    }
}

/* The last kinds of block are a sum of products, whose runs end by their tolerance and leave much unread. */
enum { ENTRY_KINDS = 5, BLOCK_KINDS = 8 };

static void draw_products(size_t rows, size_t columns)
{
    static double us[LINE], vs[LINE];
    size_t terms = 1 + draw_below(3);
    for (size_t i = 0; i < rows * columns; i++) {
        full[i] = 0;
    }
    for (size_t k = 0; k < terms; k++) {
        for (size_t i = 0; i < rows; i++) {
            us[i] = draw_inside();
        }
        for (size_t j = 0; j < columns; j++) {
            vs[j] = draw_inside();
        }
        for (size_t j = 0; j < columns; j++) {
            for (size_t i = 0; i < rows; i++) {
                full[i + j * rows] += us[i] * vs[j];
            }
        }
    }
}

static void draw_block(size_t rows, size_t columns)
{
    size_t kind = draw_below(BLOCK_KINDS);
    if (kind >= ENTRY_KINDS) {
        draw_products(rows, columns);
        return;
    }
    for (size_t i = 0; i < rows * columns; i++) {
        full[i] = draw_entry(kind);
    }
    for (size_t i = 0; i < rows && draw_below(2) == 0; i++) { /* The first rows may be nothing. */
        for (size_t j = 0; j < columns; j++) {
            full[i + j * rows] = 0;
        }
    }
}

static double draw_epsilon(void)
{
    const double epsilons[10] = {0, 0.5, 1, 2, 1e-3, 1e-6, 1e-12, -0.25, float_of(0x7ff0000000000000), float_of(0x7ff8000000000000)};
    return epsilons[draw_below(10)];
}

static double draw_filling(size_t filling)
{
    switch (filling) {
    case 0: return float_of(0x7ff8000000000000 | (draw() >> 13 | 1));
    case 1: return float_of(0x7ff0000000000000 | draw_below(2) << 63);
    case 2: return float_of(draw());
    case 3: return 1000 * draw_inside();
    default: return draw_filling(draw_below(4));
    }
}

/* NOTHING OUTSIDE */

/* What is not listed is overwritten. Answers how many entries that were. */
static size_t overwrite(const Question *q, size_t filling)
{
    size_t entries = 0;
    for (size_t j = 0; j < q->columns; j++) {
        for (size_t i = 0; i < q->rows; i++) {
            size_t place = i + j * q->rows;
            bool outside = is_outside(&listed, i, j);
            changed[place] = outside ? draw_filling(filling) : full[place];
            entries += outside;
        }
    }
    return entries;
}

/* Changes an entry that is listed, so that the test is seen to look: most such blocks must give another answer. A run may then go on
   through all that was overwritten, so large blocks are left out. */
static void try_inside(const Question *q)
{
    size_t row = first.row_list[0];
    size_t column = draw_below(q->columns);
    double *entry = &changed[row + column * q->rows];
    *entry = *entry == 3 ? 5 : 3;
    ask(q, changed, &second);
    tally.seen += difference(q, &first, &second) != 0;
}

static void try_outside(const Question *q, size_t fillings)
{
    if (ask(q, full, &first) != BBFMM_DONE) {
        fault(q, "refused");
        return;
    }
    tally.runs++;
    tally.stops[q->restart][first.counts[STOP] % 5]++;
    mark_listed(q, &first, &listed);
    size_t outside = 0;
    for (size_t k = 0; k < fillings; k++) {
        outside = overwrite(q, fillings == 1 ? FILLINGS - 1 : k);
        tally.overwritten += outside;
        tally.kept += q->rows * q->columns - outside;
        tally.runs++;
        if (ask(q, changed, &second) != BBFMM_DONE) {
            fault(q, "refused, with the outside overwritten");
        }
        const char *what = difference(q, &first, &second);
        if (what != 0) {
            fault(q, what);
        }
    }
    tally.without_outside += outside == 0;
    if (first.counts[READ] > 0 && q->rows <= LARGER && q->columns <= LARGER) {
        try_inside(q);
    }
}

/* FILLING LATE: the loop of docs/EVIDENCE.md, with NaN or a drawn number where nothing is filled in */

static bool filled[LINE * LINE];

/* Fills in what the report lists. Answers how many entries were missing. */
static size_t fill_listed(const Question *q)
{
    size_t missing = 0;
    for (size_t j = 0; j < q->columns; j++) {
        for (size_t i = 0; i < q->rows; i++) {
            size_t place = i + j * q->rows;
            if (!filled[place] && !is_outside(&listed, i, j)) {
                changed[place] = full[place];
                filled[place] = true;
                missing++;
            }
        }
    }
    return missing;
}

static void try_late(const Question *q)
{
    size_t entries = q->rows * q->columns;
    size_t missing = 1;
    for (size_t i = 0; i < entries; i++) {
        filled[i] = false;
        changed[i] = draw_filling(q->rows % FILLINGS);
    }
    while (missing > 0) {
        ask(q, changed, &second);
        mark_listed(q, &second, &listed);
        missing = fill_listed(q);
        tally.turns++;
    }
    ask(q, full, &first);
    const char *what = difference(q, &first, &second);
    if (what != 0) {
        fault(q, what);
    }
    for (size_t i = 0; i < entries; i++) {
        tally.unfilled += !filled[i];
    }
    tally.late++;
}

/* THE BLOCKS */

static void try_block(size_t rows, size_t columns, double epsilon, size_t fillings, bool is_late)
{
    for (size_t mode = 0; mode < 2; mode++) {
        Question q = {rows, columns, epsilon, mode == 1};
        try_outside(&q, fillings);
        if (is_late) {
            try_late(&q);
        }
    }
    tally.blocks++;
}

static void try_drawn(size_t most)
{
    size_t rows = draw_below(32) == 0 ? 0 : 1 + draw_below(most);
    size_t columns = draw_below(32) == 0 ? 0 : 1 + draw_below(most);
    draw_block(rows, columns);
    try_block(rows, columns, draw_epsilon(), FILLINGS, true);
}

static void try_large(size_t rows, size_t columns)
{
    draw_products(rows, columns);
    try_block(rows, columns, 1e-9, 1, rows * columns < 8 * LINE);
}

/* Everything that is counted must have come, or the blocks were not the right ones. */
static bool is_all_met(void)
{
    size_t(*s)[5] = tally.stops;
    bool are_stops_met = s[0][1] > 0 && s[0][2] > 0 && s[0][3] > 0 && s[1][1] > 0 && s[1][3] > 0 && s[1][4] > 0;
    return are_stops_met && tally.overwritten > 0 && tally.unfilled > 0 && tally.seen > tally.blocks / 2;
}

int main(void)
{
    for (size_t k = 0; k < SMALL_BLOCKS; k++) {
        try_drawn(SMALL);
    }
    for (size_t k = 0; k < LARGER_BLOCKS; k++) {
        try_drawn(LARGER);
    }
    try_large(LINE, 3);
    try_large(3, LINE);
    try_large(300, 700);
    try_large(LINE, LINE);
    try_large(LINE, LINE);
    printf("tests/unread: %zu blocks in both modes, up to %d by %d, %zu runs; %zu entries outside overwritten, %zu listed kept; ",
        tally.blocks, LINE, LINE, tally.runs, tally.overwritten, tally.kept);
    printf("%zu changes inside seen; %zu blocks filled late in %zu turns, %zu entries never filled; ", tally.seen, tally.late, tally.turns,
        tally.unfilled);
    if (tally.faults > 0 || !is_all_met()) {
        printf("%zu differences%s\n", tally.faults, is_all_met() ? "" : ", and not everything was met");
        return 1;
    }
    printf("all equal\n");
    return 0;
}
