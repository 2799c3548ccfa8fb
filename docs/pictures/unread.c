/* Fills a block of distances late, as docs/EVIDENCE.md tells: 16 by 16, between two squares of 4 by 4 points, two sides apart. A line a
   turn: how many rows and columns its report lists, its stop, and the row or the column that was then filled in; at the end the block,
   row by row, an entry a letter: r or c for a row or a column that filled it in, or a dot. */
#include "bbfmm.h"

int printf(const char *format, ...);
double processor_root(double x);

enum { SIDE = 4, POINTS = SIDE * SIDE };

/* What is not filled in is 0. */
static double block[POINTS * POINTS];
static char filled[POINTS * POINTS];

/* What a site would measure or work out: dear, so each entry is asked for once. */
static double kernel(size_t i, size_t j)
{
    double across = (double)(j / SIDE) + 2.0 * SIDE - (double)(i / SIDE);
    double along = (double)(j % SIDE) - (double)(i % SIDE);
    return processor_root(across * across + along * along);
}

/* Whether something in a row, or in a column, is not filled in yet. */
static bool is_missing(size_t line, bool is_row)
{
    for (size_t k = 0; k < POINTS; k++) {
        if (filled[is_row ? line + k * POINTS : k + line * POINTS] == 0) {
            return true;
        }
    }
    return false;
}

static void fill_in(size_t line, bool is_row)
{
    for (size_t k = 0; k < POINTS; k++) {
        size_t place = is_row ? line + k * POINTS : k + line * POINTS;
        if (filled[place] == 0) {
            block[place] = kernel(place % POINTS, place / POINTS);
            filled[place] = is_row ? 'r' : 'c';
        }
    }
    printf(", %s %zu is filled in\n", is_row ? "row" : "column", line);
}

/* How far the list is filled in. */
static size_t first_missing(const uint16_t *list, size_t count, bool is_row)
{
    size_t k = 0;
    while (k < count && !is_missing(list[k], is_row)) {
        k++;
    }
    return k;
}

/* One turn of the loop: a run on what is there, and the first listed row or column that misses something is filled in. Answers whether
   there was one. */
static bool turn(void)
{
    static double u[POINTS * POINTS], v[POINTS * POINTS], row[POINTS], column[POINTS], numbers[2];
    static uint16_t rows[POINTS], columns[POINTS];
    static size_t counts[3];
    uint8_t number = bbfmm_aca_partial_pivoting(POINTS, POINTS, block, POINTS * POINTS, 1e-3, true, u, POINTS * POINTS, v, POINTS * POINTS,
        rows, POINTS, columns, POINTS, row, POINTS, column, POINTS, counts, 3, numbers, 2);
    if (number != BBFMM_DONE) {
        return false;
    }
    size_t next_row = first_missing(rows, counts[2], true);
    size_t next_column = first_missing(columns, counts[0], false);
    printf("%zu rows, %zu columns, stop %zu", counts[2], counts[0], counts[1]);
    if (next_row == counts[2] && next_column == counts[0]) {
        printf(", nothing is missing\n");
        return false;
    }
    bool is_row = next_row < counts[2] && (next_column == counts[0] || next_row <= next_column);
    fill_in(is_row ? rows[next_row] : columns[next_column], is_row);
    return true;
}

int main(void)
{
    while (turn()) {
    }
    for (size_t k = 0; k < POINTS * POINTS; k++) {
        char how = filled[k / POINTS + k % POINTS * POINTS];
        printf("%c%s", how == 0 ? '.' : how, k % POINTS + 1 == POINTS ? "\n" : "");
    }
    return 0;
}
