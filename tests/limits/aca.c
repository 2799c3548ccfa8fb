/* Cross approximation, in both modes. The lengths of the seven buffers of the run are walked, each for itself, with a report that
   fits; then the lengths of the report's two slices, with all others alike. The row list's length depends on the mode, so that each
   mode is lent the other one's too. */
#include "walk.h"

BUFFER(samples, double, 1040, 7);
BUFFER(u, double, 1040, 7);
BUFFER(v, double, 1040, 7);
BUFFER(row_list, uint16_t, 1030, 9999);
BUFFER(column_list, uint16_t, 1030, 9999);
BUFFER(row, double, 1030, 7);
BUFFER(column, double, 1030, 7);
BUFFER(counts, size_t, 8, 77);
BUFFER(numbers, double, 8, 7);

static size_t count_at(size_t k)
{
    return (size_t[]){0, 1, 3, 1024, 1025, (size_t)-1}[k];
}

/* Two modes, six rows, six columns, four lengths for each of six buffers, five for the row list. */
enum { RUNS = 2 * 6 * 6 * 4 * 4 * 4 * 4 * 4 * 4 * 5 };

/* Two modes, six rows, six columns, four lengths for all of these, four for each slice of the report. */
enum { REPORTS = 2 * 6 * 6 * 4 * 4 * 4 };

/* Which lengths are lent: a digit each for u, v, the row list, the column list, row, column, samples, counts and numbers. */
enum { SLICES = 9, OF_RUN = 7, ROW_LIST = 2, OTHER_MODE = 4 };
static void take_digits(size_t *k, bool is_run, size_t *digits)
{
    size_t alike = is_run ? 0 : take(k, 4);
    for (size_t i = 0; i < OF_RUN; i++) {
        digits[i] = is_run ? take(k, i == ROW_LIST ? 5 : 4) : alike;
    }
    for (size_t i = OF_RUN; i < SLICES; i++) {
        digits[i] = is_run ? 0 : take(k, 4);
    }
}

/* The row list has a place a row in restart mode, and in the old mode as many as there are rows or columns, whichever are fewer. */
static bool lend_row_list(size_t rows, size_t most, bool restart, size_t digit)
{
    size_t exact = restart ? rows : most;
    if (digit != OTHER_MODE) {
        return lend(&row_list, exact, digit);
    }
    lend(&row_list, restart ? most : rows, 0);
    return row_list.length == exact;
}

static Outcome aca_partial_pivoting(size_t k)
{
    size_t digits[SLICES];
    bool is_run = k < RUNS;
    k -= is_run ? 0 : RUNS;
    bool restart = take(&k, 2) == 1;
    size_t rows = count_at(take(&k, 6));
    size_t columns = count_at(take(&k, 6));
    size_t most = lesser(rows, columns);
    take_digits(&k, is_run, digits);
    bool fits = lend(&u, product(rows, most), digits[0]);
    fits = lend(&v, product(columns, most), digits[1]) && fits;
    fits = lend_row_list(rows, most, restart, digits[ROW_LIST]) && fits;
    fits = lend(&column_list, most, digits[3]) && fits;
    fits = lend(&row, columns, digits[4]) && fits;
    fits = lend(&column, rows, digits[5]) && fits;
    fits = lend(&samples, product(rows, columns), digits[6]) && fits;
    fits = lend(&counts, 3, digits[7]) && fits;
    fits = lend(&numbers, 2, digits[8]) && fits;
    uint8_t expected = first(unless(rows <= 1024 && columns <= 1024, BBFMM_NO_COUNT), unless(fits, BBFMM_WRONG_LENGTH));
    uint8_t number = bbfmm_aca_partial_pivoting(
        rows, columns, LENT(samples), 0.001, restart, LENT(u), LENT(v), LENT(row_list), LENT(column_list), LENT(row), LENT(column),
        LENT(counts), LENT(numbers));
    return (Outcome){expected, number, false};
}

void walk_aca(void)
{
    Buffer *const lent[] = {&samples, &u, &v, &row_list, &column_list, &row, &column, &counts, &numbers};
    WALK("aca_partial_pivoting", RUNS + REPORTS, aca_partial_pivoting, lent);
}
