/* Kind 10: a tolerance, and a block, column by column, that is approximated, in restart mode where the flag says so. Its columns stand
   in the place of an order. What is lent is filled with numbers that no call writes, so that a place that stays as it was is seen. */
#include "replay.h"

enum { ROOM = 4096, LINE = 255, LIST = 64 };

static double samples[ROOM];
static double u[ROOM];
static double v[ROOM];
static uint16_t row_list[LINE];
static uint16_t column_list[LIST];
static double row[LINE];
static double column[LINE];

static size_t area(size_t rows, size_t columns)
{
    return up_to(ROOM, up_to(ROOM, rows) * up_to(ROOM, columns));
}

static void fill(void)
{
    for (size_t i = 0; i < ROOM; i++) {
        u[i] = v[i] = 7;
    }
    for (size_t i = 0; i < LIST; i++) {
        column_list[i] = 9999;
    }
    for (size_t i = 0; i < LINE; i++) {
        row_list[i] = 9999;
        row[i] = column[i] = 5;
    }
}

static void put_pair(const double *left, size_t left_count, const double *right, size_t right_count)
{
    printf(" |");
    put_floats(left, left_count);
    printf(" |");
    put_floats(right, right_count);
}

static void put_list(const uint16_t *list, size_t count)
{
    printf(" |");
    for (size_t i = 0; i < count; i++) {
        printf(" %u", list[i]);
    }
}

void replay_aca(Case c)
{
    double epsilon;
    size_t counts[3];
    double numbers[2];
    size_t columns = c.order;
    size_t most = c.rows < columns ? c.rows : columns;
    size_t listed = up_to(LIST, most);
    size_t tall = up_to(LINE, c.rows);
    size_t wide = up_to(LINE, columns);
    size_t rows_listed = c.flag ? tall : listed;
    read_floats(&epsilon, 1);
    read_floats(samples, area(c.rows, columns));
    fill();
    uint8_t refusal = bbfmm_aca_partial_pivoting(
        c.rows, columns, samples, area(c.rows, columns), epsilon, c.flag, u, area(c.rows, most), v, area(columns, most), row_list,
        rows_listed, column_list, listed, row, wide, column, tall, counts, 3, numbers, 2);
    printf("%s %zu %zu:", c.flag ? "restart" : "cross", c.rows, columns);
    if (refusal == 0) {
        printf(" rank %zu stop %zu rows %zu", counts[0], counts[1], counts[2]);
        put_float(numbers[0]);
        put_float(numbers[1]);
    } else {
        printf(" refused %u", refusal);
    }
    put_pair(u, area(c.rows, most), v, area(columns, most));
    put_list(row_list, rows_listed);
    put_list(column_list, listed);
    put_pair(row, wide, column, tall);
    printf("\n");
}
