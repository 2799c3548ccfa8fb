/* Cross approximation in both modes: the results of documents 01 to 03 and some worked out by hand, on blocks of at most four rows
   and two columns; empty blocks; and every refusal, with all lent memory. */
#include "check.h"

enum { OLD = 0, RESTART = 1, SLICES = 9 };

/* A float that no run writes here, in the places that must stay as lent; and the same for a place of a list. */
static const double X = -7;
enum { NO = 9 };

/* The float below 1, which is what 49 * (1/49) comes to. */
static const double BELOW_ONE = 0x1.fffffffffffffp-1;

static double u[4];
static double v[4];
static uint16_t row_list[2];
static uint16_t column_list[2];
static double row[2];
static double column[2];
static size_t counts[3];
static double numbers[2];

/* A call on a block of two rows and two columns, column by column, with all buffers whole. */
static uint8_t called(const double *samples, double epsilon, bool restart)
{
    for (size_t i = 0; i < 4; i++) {
        u[i] = v[i] = X;
    }
    for (size_t i = 0; i < 2; i++) {
        row_list[i] = column_list[i] = NO;
        row[i] = column[i] = X;
    }
    return bbfmm_aca_partial_pivoting(
        2, 2, samples, 4, epsilon, restart, LEND(u), LEND(v), LEND(row_list), LEND(column_list), LEND(row), LEND(column),
        LEND(counts), LEND(numbers));
}

/* What the last call told: rank, stop, rows read, the estimate and the smallest pivot. */
static bool told(size_t rank, size_t stop, size_t rows_read, double sum, double smallest)
{
    return HOLDS(counts, (size_t[]){rank, stop, rows_read}) && HOLDS(numbers, (double[]){sum, smallest});
}

/* Its lists. */
static bool listed(uint16_t first_row, uint16_t second_row, uint16_t first_column, uint16_t second_column)
{
    return HOLDS(row_list, (uint16_t[]){first_row, second_row}) && HOLDS(column_list, (uint16_t[]){first_column, second_column});
}

/* Its working row and column. */
static bool worked(double r0, double r1, double c0, double c1)
{
    return HOLDS(row, (double[]){r0, r1}) && HOLDS(column, (double[]){c0, c1});
}

/* OLD MODE */

/* Rows (2,4), (1,2). */
static void test_rank_one(void)
{
    const double samples[4] = {2, 1, 4, 2};
    CHECK(called(samples, 1, OLD) == BBFMM_DONE);
    CHECK(told(1, BBFMM_STOP_TOLERABLE, 1, 25, 4));
    CHECK(HOLDS(u, (double[]){4, 2, X, X}));
    CHECK(HOLDS(v, (double[]){0.5, 1, X, X}));
    CHECK(listed(0, NO, 1, NO));
    CHECK(worked(0.5, 1, 4, 2));

    CHECK(called(samples, 0.5, OLD) == BBFMM_DONE);
    CHECK(told(1, BBFMM_STOP_SPENT, 2, 25, 4));
    CHECK(HOLDS(u, (double[]){4, 2, X, X}));
    CHECK(HOLDS(v, (double[]){0.5, 1, X, X}));
    CHECK(listed(0, 1, 1, NO));
    CHECK(worked(0, 0, 4, 2));
}

/* Rows (1,0), (0,1): row 0 is read again, and row 1 never. */
static void test_unit(void)
{
    const double samples[4] = {1, 0, 0, 1};
    CHECK(called(samples, 0.5, OLD) == BBFMM_DONE);
    CHECK(told(1, BBFMM_STOP_SPENT, 2, 1, 1));
    CHECK(HOLDS(u, (double[]){1, 0, X, X}));
    CHECK(HOLDS(v, (double[]){1, 0, X, X}));
    CHECK(listed(0, 0, 0, NO));
    CHECK(worked(0, 0, 1, 0));
}

/* Rows (49,0), (0,0): row 0 and column 0 are read again. 49 * (1 - 2^-53) rounds to 49 - 2^-47, so 2^-47 is left there, and that is a
   pivot. The second term's norm is 2^-94. Its cross term is (49 * 2^-47) * (1 - 2^-53), which rounds to one step below 49 * 2^-47.
   Twice that is 1.53 * 2^-41 or a little less, and goes onto 2401 - 2^-41, where a step is 2^-41: two steps. */
static void test_read_again(void)
{
    const double samples[4] = {49, 0, 0, 0};
    CHECK(called(samples, 0.5, OLD) == BBFMM_DONE);
    CHECK(told(2, BBFMM_STOP_TOLERABLE, 2, 0x1.2c20000000001p11, 0x1p-47));
    CHECK(HOLDS(u, (double[]){49, 0, 0x1p-47, 0}));
    CHECK(HOLDS(v, (double[]){BELOW_ONE, 0, 1, 0}));
    CHECK(listed(0, 0, 0, 0));
    CHECK(worked(1, 0, 0x1p-47, 0));
}

/* RESTART MODE */

/* Rows (1,0), (0,1): the next row would be row 0 again, so row 1 is read. With as many terms as rows the run ends with 3. */
static void test_unit_restarted(void)
{
    const double samples[4] = {1, 0, 0, 1};
    CHECK(called(samples, 0.5, RESTART) == BBFMM_DONE);
    CHECK(told(2, BBFMM_STOP_USED_UP, 2, 2, 1));
    CHECK(HOLDS(u, (double[]){1, 0, 0, 1}));
    CHECK(HOLDS(v, (double[]){1, 0, 0, 1}));
    CHECK(listed(0, 1, 0, 1));
    CHECK(worked(0, 1, 0, 1));

    /* The first term's norm is the estimate, so that epsilon 1 ends the run before a next row is looked for. */
    CHECK(called(samples, 1, RESTART) == BBFMM_DONE);
    CHECK(told(1, BBFMM_STOP_TOLERABLE, 1, 1, 1));
    CHECK(listed(0, NO, 0, NO));
    CHECK(worked(1, 0, 1, 0));
}

/* Rows (0,0), (1,0): row 0 has no pivot and stores nothing. */
static void test_nothing_in_the_first_row(void)
{
    const double samples[4] = {0, 1, 0, 0};
    CHECK(called(samples, 0.5, RESTART) == BBFMM_DONE);
    CHECK(told(1, BBFMM_STOP_ALL_TRIED, 2, 1, 1));
    CHECK(HOLDS(u, (double[]){0, 1, X, X}));
    CHECK(HOLDS(v, (double[]){1, 0, X, X}));
    CHECK(listed(0, 1, 0, NO));
    CHECK(worked(1, 0, 0, 1));

    /* The tolerance is tested before a next row is looked for: 1, though every row was read. */
    CHECK(called(samples, 1, RESTART) == BBFMM_DONE);
    CHECK(told(1, BBFMM_STOP_TOLERABLE, 2, 1, 1));
    CHECK(listed(0, 1, 0, NO));

    CHECK(called(samples, 0.5, OLD) == BBFMM_DONE);
    CHECK(told(0, BBFMM_STOP_SPENT, 1, 0, 0));
    CHECK(listed(0, NO, NO, NO));
    CHECK(worked(0, 0, X, X));
}

/* Rows (2,4), (1,2): after row 1, which has no pivot, estimate and working column are as they were, and no tolerance is tested. */
static void test_rank_one_restarted(void)
{
    const double samples[4] = {2, 1, 4, 2};
    CHECK(called(samples, 0.5, RESTART) == BBFMM_DONE);
    CHECK(told(1, BBFMM_STOP_ALL_TRIED, 2, 25, 4));
    CHECK(HOLDS(u, (double[]){4, 2, X, X}));
    CHECK(HOLDS(v, (double[]){0.5, 1, X, X}));
    CHECK(listed(0, 1, 1, NO));
    CHECK(worked(0, 0, 4, 2));

    CHECK(called(samples, 1, RESTART) == BBFMM_DONE);
    CHECK(told(1, BBFMM_STOP_TOLERABLE, 1, 25, 4));
    CHECK(listed(0, NO, 1, NO));
    CHECK(worked(0.5, 1, 4, 2));
}

/* Rows (49,0), (0,0). Row 0: pivot 49; 1/49 rounds down and 49 * (1/49) to 1 - 2^-53, so V is (1 - 2^-53, 0) and U is (49, 0). The
   square of 1 - 2^-53 rounds to 1 - 2^-52, and 2401 * (1 - 2^-52) to 2401 - 2^-41, since a step at 2401 is 2^-41 and 2401 * 2^-52 is
   1.17 steps. That is norm and estimate, and it is above a quarter of itself. The largest unread entry of the column
   is 0, so the next row would be row 0, which was read: row 1 is taken instead. Less 0 * V it is (0, 0), so it has no pivot, and no
   row is left: stop 4. */
static void test_not_read_again(void)
{
    const double samples[4] = {49, 0, 0, 0};
    CHECK(called(samples, 0.5, RESTART) == BBFMM_DONE);
    CHECK(told(1, BBFMM_STOP_ALL_TRIED, 2, 0x1.2c1ffffffffffp11, 49));
    CHECK(HOLDS(u, (double[]){49, 0, X, X}));
    CHECK(HOLDS(v, (double[]){BELOW_ONE, 0, X, X}));
    CHECK(listed(0, 1, 0, NO));
    CHECK(worked(0, 0, 49, 0));
}

/* Rows (49,0), (49,0): as above, but of row 1 is left 49 - 49 * (1 - 2^-53) = 2^-47, in the column that is used. The old mode takes it
   for a pivot, since its search falls back to column 0. Restart mode has none, and the working row holds what is left. */
static void test_used_column(void)
{
    const double samples[4] = {49, 49, 0, 0};
    CHECK(called(samples, 0.5, RESTART) == BBFMM_DONE);
    CHECK(told(1, BBFMM_STOP_ALL_TRIED, 2, 0x1.2c1ffffffffffp12, 49));
    CHECK(HOLDS(u, (double[]){49, 49, X, X}));
    CHECK(HOLDS(v, (double[]){BELOW_ONE, 0, X, X}));
    CHECK(listed(0, 1, 0, NO));
    CHECK(worked(0x1p-47, 0, 49, 49));

    CHECK(called(samples, 0.5, OLD) == BBFMM_DONE);
    CHECK(counts[0] == 2 && counts[2] == 2 && numbers[1] == 0x1p-47);
    CHECK(listed(0, 1, 0, 0));
    CHECK(worked(1, 0, 0x1p-47, 0x1p-47));
}

/* Nothing but zeros: both rows are read, and nothing is written but the list and the working row. */
static void test_zeros(void)
{
    const double samples[4] = {0, -0.0, -0.0, 0};
    CHECK(called(samples, 0, RESTART) == BBFMM_DONE);
    CHECK(told(0, BBFMM_STOP_ALL_TRIED, 2, 0, 0));
    CHECK(HOLDS(u, (double[]){X, X, X, X}));
    CHECK(HOLDS(v, (double[]){X, X, X, X}));
    CHECK(listed(0, 1, NO, NO));
    CHECK(worked(-0.0, 0, X, X));
}

/* BLOCKS OF ONE ENTRY */

/* Rank, stop and smallest pivot of a block of one entry. What is lent is one entry long in either mode. */
static bool alone(double entry, bool restart, size_t rank, size_t stop, double smallest)
{
    uint8_t number = bbfmm_aca_partial_pivoting(
        1, 1, &entry, 1, 0.5, restart, u, 1, v, 1, row_list, 1, column_list, 1, row, 1, column, 1, LEND(counts), LEND(numbers));
    return number == BBFMM_DONE && HOLDS(counts, (size_t[]){rank, stop, 1}) && same(numbers + 1, &smallest, sizeof smallest) &&
           row_list[0] == 0;
}

/* A NaN is a pivot in the old mode only, and is passed over as the smallest; an infinity, and 2^-52 itself, are pivots in both, and
   are told without their sign; the float below 2^-52 in none. */
static void test_one_entry(void)
{
    double none = 0;
    double endless = 1 / none;
    CHECK(alone(none / none, RESTART, 0, BBFMM_STOP_ALL_TRIED, 0));
    CHECK(HOLDS(numbers, (double[]){0, 0}) && row[0] != row[0]);
    CHECK(alone(none / none, OLD, 1, BBFMM_STOP_USED_UP, 0));
    CHECK(numbers[0] != numbers[0] && u[0] != u[0] && v[0] != v[0] && column_list[0] == 0);
    CHECK(alone(-endless, RESTART, 1, BBFMM_STOP_USED_UP, endless));
    CHECK(alone(-endless, OLD, 1, BBFMM_STOP_USED_UP, endless));
    CHECK(alone(-0x1p-52, RESTART, 1, BBFMM_STOP_USED_UP, 0x1p-52));
    CHECK(u[0] == -0x1p-52 && v[0] == 1 && numbers[0] == 0x1p-104);
    CHECK(alone(-0x1p-52, OLD, 1, BBFMM_STOP_USED_UP, 0x1p-52));
    CHECK(alone(0x1.fffffffffffffp-53, RESTART, 0, BBFMM_STOP_ALL_TRIED, 0));
    CHECK(row[0] == 0x1.fffffffffffffp-53);
    CHECK(alone(0x1.fffffffffffffp-53, OLD, 0, BBFMM_STOP_SPENT, 0));
}

/* THE SMALLEST PIVOT is the first or the second; a refused pivot does not count, and a NaN, first or later, is passed over. */
static void test_smallest(void)
{
    double none = 0;
    double nan = none / none;
    /* Rows (1,0), (0,-3) and (-3,0), (0,1), in restart mode. */
    CHECK(called((double[]){1, 0, 0, -3}, 0.1, RESTART) == BBFMM_DONE && counts[0] == 2 && numbers[1] == 1);
    CHECK(called((double[]){-3, 0, 0, 1}, 0.1, RESTART) == BBFMM_DONE && counts[0] == 2 && numbers[1] == 1);
    /* Rows (4,0), (0,2^-53): row 1 has no pivot. */
    CHECK(called((double[]){4, 0, 0, 0x1p-53}, 0.1, RESTART) == BBFMM_DONE && counts[0] == 1 && numbers[1] == 4);
    /* Rows (2,0), (infinity,0), in the old mode: of row 1 less the first term NaNs are left. And rows (NaN,0), (2,0), where every pivot
       is a NaN. */
    CHECK(called((double[]){2, 1 / none, 0, 0}, 0, OLD) == BBFMM_DONE && counts[0] == 2 && numbers[1] == 2);
    CHECK(called((double[]){nan, 2, 0, 0}, 0, OLD) == BBFMM_DONE && counts[0] == 2 && numbers[1] == 0);
}

/* FOUR ROWS and two columns: the row list is 2 long in the old mode and 4 in restart mode. A buffer has room for an entry more. */

static double tall_samples[9];
static double tall_u[9];
static double tall_v[5];
static uint16_t tall_rows[5];
static uint16_t tall_columns[3];
static double tall_row[3];
static double tall_column[5];
static size_t tall_counts[4];
static double tall_numbers[3];

static const size_t EXACT[2][SLICES] = {{8, 8, 4, 2, 2, 2, 4, 3, 2}, {8, 8, 4, 4, 2, 2, 4, 3, 2}};

/* A call that lends so much of each: samples, u, v, lists of rows and columns, row, column, counts, numbers. */
static uint8_t lent(size_t rows, size_t columns, bool restart, const size_t *lengths)
{
    return bbfmm_aca_partial_pivoting(
        rows, columns, tall_samples, lengths[0], 0.5, restart, tall_u, lengths[1], tall_v, lengths[2], tall_rows, lengths[3],
        tall_columns, lengths[4], tall_row, lengths[5], tall_column, lengths[6], tall_counts, lengths[7], tall_numbers, lengths[8]);
}

static void fill_tall(void)
{
    FILL(tall_samples);
    FILL(tall_u);
    FILL(tall_v);
    FILL(tall_rows);
    FILL(tall_columns);
    FILL(tall_row);
    FILL(tall_column);
    FILL(tall_counts);
    FILL(tall_numbers);
}

static bool run_kept(void)
{
    return KEPT(tall_samples) && KEPT(tall_u) && KEPT(tall_v) && KEPT(tall_rows) && KEPT(tall_columns) && KEPT(tall_row) &&
           KEPT(tall_column);
}

static bool tall_kept(void)
{
    return run_kept() && KEPT(tall_counts) && KEPT(tall_numbers);
}

/* Each slice one entry short, and one long. */
static void test_wrong_lengths(bool restart)
{
    for (size_t slice = 0; slice < SLICES; slice++) {
        size_t lengths[SLICES];
        for (size_t i = 0; i < SLICES; i++) {
            lengths[i] = EXACT[restart][i];
        }
        lengths[slice] = EXACT[restart][slice] - 1;
        CHECK(lent(4, 2, restart, lengths) == BBFMM_WRONG_LENGTH);
        CHECK(lent(1025, 2, restart, lengths) == BBFMM_NO_COUNT);
        lengths[slice] = EXACT[restart][slice] + 1;
        CHECK(lent(4, 2, restart, lengths) == BBFMM_WRONG_LENGTH);
        CHECK(lent(4, 1025, restart, lengths) == BBFMM_NO_COUNT);
    }
}

static void test_refusals(void)
{
    fill_tall();
    for (size_t restart = OLD; restart <= RESTART; restart++) {
        test_wrong_lengths(restart);
        CHECK(lent(1025, 2, restart, EXACT[restart]) == BBFMM_NO_COUNT);
        CHECK(lent(4, 1025, restart, EXACT[restart]) == BBFMM_NO_COUNT);
        /* The other mode's list. */
        CHECK(lent(4, 2, restart, EXACT[1 - restart]) == BBFMM_WRONG_LENGTH);
    }
    CHECK(tall_kept());
}

/* Whether a buffer begins with so many bytes of another and holds the pattern beyond. */
static bool begins(const void *buffer, size_t bytes, const void *front, size_t front_bytes)
{
    return same(buffer, front, front_bytes) && kept((const unsigned char *)buffer + front_bytes, bytes - front_bytes);
}
#define BEGINS(buffer, type, count, ...) begins((buffer), sizeof(buffer), (type[count]){__VA_ARGS__}, (count) * sizeof(type))

/* A call in restart mode on a block of four rows, column by column. */
static uint8_t called_tall(const double *samples, double epsilon)
{
    fill_tall();
    return bbfmm_aca_partial_pivoting(
        4, 2, samples, 8, epsilon, RESTART, tall_u, 8, tall_v, 4, tall_rows, 4, tall_columns, 2, tall_row, 2, tall_column, 4,
        tall_counts, 3, tall_numbers, 2);
}

/* Rows (0,0), (0,3), (0,0), (0,0). Row 0 has no pivot; row 1 has one, in column 1. Then row 0 would be next, so row 2 is read, which
   has none, and row 3. All four rows stand in the list, though there is room for two terms only. */
static void test_longer_list(void)
{
    const double samples[8] = {0, 0, 0, 0, 0, 3, 0, 0};
    CHECK(called_tall(samples, 0.5) == BBFMM_DONE);
    CHECK(BEGINS(tall_counts, size_t, 3, 1, BBFMM_STOP_ALL_TRIED, 4));
    CHECK(BEGINS(tall_numbers, double, 2, 9, 3));
    CHECK(BEGINS(tall_u, double, 4, 0, 3, 0, 0));
    CHECK(BEGINS(tall_v, double, 2, 0, 1));
    CHECK(BEGINS(tall_rows, uint16_t, 4, 0, 1, 2, 3));
    CHECK(BEGINS(tall_columns, uint16_t, 1, 1));
    CHECK(BEGINS(tall_row, double, 2, 0, 0));
    CHECK(BEGINS(tall_column, double, 4, 0, 3, 0, 0));
}

/* Rows (1,0), (1,1), (3,0), (2,1). After row 0 the column is (1,1,3,2), so row 2 is next, as in the old mode. It is three times row 0
   and has no pivot. So the lowest unread row is next, which is row 1, and not row 3, though that has more in the column. Row 1 less the
   first term is (0,1), and column 1 is (0,1,0,1): norm 2, and the estimate 15 + 2. Row 3 is never read. */
static void test_order_of_rows(void)
{
    const double samples[8] = {1, 1, 3, 2, 0, 1, 0, 1};
    CHECK(called_tall(samples, 0.25) == BBFMM_DONE);
    CHECK(BEGINS(tall_counts, size_t, 3, 2, BBFMM_STOP_USED_UP, 3));
    CHECK(BEGINS(tall_numbers, double, 2, 17, 1));
    CHECK(BEGINS(tall_u, double, 8, 1, 1, 3, 2, 0, 1, 0, 1));
    CHECK(BEGINS(tall_v, double, 4, 1, 0, 0, 1));
    CHECK(BEGINS(tall_rows, uint16_t, 3, 0, 2, 1));
    CHECK(BEGINS(tall_columns, uint16_t, 2, 0, 1));
    CHECK(BEGINS(tall_row, double, 2, 0, 1));
    CHECK(BEGINS(tall_column, double, 4, 0, 1, 0, 1));
    /* 2 is below a quarter of 17. */
    CHECK(called_tall(samples, 0.5) == BBFMM_DONE);
    CHECK(BEGINS(tall_counts, size_t, 3, 2, BBFMM_STOP_TOLERABLE, 3));
    CHECK(BEGINS(tall_rows, uint16_t, 3, 0, 2, 1));
}

/* Rows (0), (1): with both rows read there is one term, and a column: 3 and not 4. With epsilon 1 the tolerance comes first. */
static void test_three_before_four(void)
{
    const double samples[2] = {0, 1};
    for (size_t k = 0; k < 2; k++) {
        CHECK(bbfmm_aca_partial_pivoting(
            2, 1, LEND(samples), k == 0 ? 0.5 : 1, RESTART, u, 2, v, 1, row_list, 2, column_list, 1, row, 1, column, 2, LEND(counts),
            LEND(numbers)) == BBFMM_DONE);
        CHECK(told(1, k == 0 ? BBFMM_STOP_USED_UP : BBFMM_STOP_TOLERABLE, 2, 1, 1));
        CHECK(HOLDS(row_list, (uint16_t[]){0, 1}) && column_list[0] == 0);
    }
}

/* EMPTY BLOCKS */

/* A call that must be done, read nothing and write nothing but the report. */
static void test_nothing_read(size_t rows, size_t columns, bool restart, const size_t *lengths)
{
    fill_tall();
    CHECK(lent(rows, columns, restart, lengths) == BBFMM_DONE);
    CHECK(BEGINS(tall_counts, size_t, 3, 0, BBFMM_STOP_USED_UP, 0));
    CHECK(BEGINS(tall_numbers, double, 2, 0, 0));
    CHECK(run_kept());
}

/* No rows, no columns, or neither. With no columns the row list of restart mode still has a place for each row. */
static void test_empty(void)
{
    const size_t no_rows[SLICES] = {0, 0, 0, 0, 0, 2, 0, 3, 2};
    const size_t no_columns[2][SLICES] = {{0, 0, 0, 0, 0, 0, 4, 3, 2}, {0, 0, 0, 4, 0, 0, 4, 3, 2}};
    const size_t neither[SLICES] = {0, 0, 0, 0, 0, 0, 0, 3, 2};
    for (size_t restart = OLD; restart <= RESTART; restart++) {
        test_nothing_read(0, 2, restart, no_rows);
        test_nothing_read(4, 0, restart, no_columns[restart]);
        test_nothing_read(0, 0, restart, neither);
        fill_tall();
        CHECK(lent(4, 0, restart, no_columns[1 - restart]) == BBFMM_WRONG_LENGTH);
        CHECK(tall_kept());
    }
}

void test_aca(void)
{
    test_rank_one();
    test_unit();
    test_read_again();
    test_unit_restarted();
    test_nothing_in_the_first_row();
    test_rank_one_restarted();
    test_not_read_again();
    test_used_column();
    test_zeros();
    test_one_entry();
    test_smallest();
    test_refusals();
    test_longer_list();
    test_order_of_rows();
    test_three_before_four();
    test_empty();
}
