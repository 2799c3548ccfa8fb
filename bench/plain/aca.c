/* Masked argmax, rank cutoff and cross approximation. */
#include "plain.h"

static double size_of(double x)
{
    return x < 0 ? -x : x;
}

static size_t argmax(const double *restrict entries, const uint8_t *restrict mask, size_t count)
{
    size_t place = 0;
    double best = 0;
    for (size_t k = 0; k < count; k++) {
        double size = size_of(entries[k]);
        if (size > best && mask[k] == 1) {
            place = k;
            best = size;
        }
    }
    return place;
}

uint8_t plain_argmax_masked(
    const double *restrict entries, size_t entries_length, const uint8_t *restrict mask, size_t mask_length, size_t *restrict place,
    size_t place_length)
{
    if (entries_length > 1024) {
        return BBFMM_NO_COUNT;
    }
    if (mask_length != entries_length || place_length != 1) {
        return BBFMM_WRONG_LENGTH;
    }
    for (size_t k = 0; k < mask_length; k++) {
        if (mask[k] > 1) {
            return BBFMM_NO_MASK;
        }
    }
    *place = argmax(entries, mask, entries_length);
    return 0;
}

uint8_t plain_calculate_singular_values_cutoff(
    const double *restrict values, size_t values_length, double epsilon, size_t *restrict place, size_t place_length)
{
    size_t count = values_length;
    if (count < 1 || count > 1024) {
        return BBFMM_NO_COUNT;
    }
    if (place_length != 1) {
        return BBFMM_WRONG_LENGTH;
    }
    double total = 0;
    for (size_t k = count; k-- > 0;) {
        total += values[k] * values[k];
    }
    double bound = total * epsilon * epsilon;
    double sum = 0;
    size_t at = count;
    while (at > 0) {
        sum += values[at - 1] * values[at - 1];
        if (!(sum < bound)) {
            break;
        }
        at--;
    }
    *place = at;
    return 0;
}

static double dot(const double *restrict a, const double *restrict b, size_t count)
{
    double sum = 0;
    for (size_t i = 0; i < count; i++) {
        sum += a[i] * b[i];
    }
    return sum;
}

/* A block, and what a run is lent for it. */
typedef struct {
    size_t rows, columns;
    const double *samples;
    double *u, *v;
    uint16_t *row_list, *column_list;
    double *row, *column;
} Lent;

/* The sum of the first k terms along a line, each times its factor. */
static void sum_terms(
    size_t k, size_t count, const double *restrict terms, const double *restrict factors, size_t stride, double *restrict line)
{
    for (size_t i = 0; i < count; i++) {
        line[i] = 0;
    }
    for (size_t l = 0; l < k; l++) {
        double factor = factors[l * stride];
        for (size_t i = 0; i < count; i++) {
            line[i] += terms[l * count + i] * factor;
        }
    }
}

/* A line of the block, whose entries stand so far apart, less the first k terms. */
static void read_line(
    size_t k, size_t count, const double *restrict samples, size_t apart, const double *restrict terms,
    const double *restrict factors, size_t stride, double *restrict line)
{
    sum_terms(k, count, terms, factors, stride, line);
    for (size_t i = 0; i < count; i++) {
        line[i] = samples[i * apart] - line[i];
    }
}

/* The smallest size among the pivots that are numbers, with one more of them; 0 where there is none yet. */
static double lesser(double smallest, double size)
{
    if (smallest > 0) {
        return size < smallest ? size : smallest;
    }
    return size == size ? size : smallest;
}

/* Makes term k of the row that was read, with its pivot in column j, and of that column. Adds to the estimate, and answers the norm. */
static double add_term(const Lent *lent, size_t k, size_t j, double *restrict estimate)
{
    size_t rows = lent->rows;
    size_t columns = lent->columns;
    double *restrict row = lent->row;
    double *restrict column = lent->column;
    double *restrict u = lent->u;
    double *restrict v = lent->v;
    double factor = 1 / row[j];
    for (size_t c = 0; c < columns; c++) {
        row[c] = row[c] * factor;
    }
    read_line(k, rows, lent->samples + j * rows, 1, u, v + j, columns, column);
    double norm = dot(column, column, rows) * dot(row, row, columns);
    double cross = 0;
    for (size_t l = 0; l < k; l++) {
        cross += dot(u + l * rows, column, rows) * dot(v + l * columns, row, columns);
    }
    for (size_t i = 0; i < rows; i++) {
        u[k * rows + i] = column[i];
    }
    for (size_t c = 0; c < columns; c++) {
        v[k * columns + c] = row[c];
    }
    lent->column_list[k] = (uint16_t)j;
    *estimate += norm + 2 * cross;
    return norm;
}

/* The lowest unread row from a place on; or how many rows there are. */
static size_t lowest_unread(const uint8_t *restrict flags, size_t rows, size_t from)
{
    while (from < rows && flags[from] == 0) {
        from++;
    }
    return from;
}

/* Leaves rank and rows read in `counts`, estimate and smallest pivot in `numbers`, and answers why the run ended. No row below `lowest`
   is unread. */
static size_t run(const Lent *lent, double tolerance, bool restart, size_t *restrict counts, double *restrict numbers)
{
    uint8_t row_flags[1024];
    uint8_t column_flags[1024];
    size_t rows = lent->rows;
    size_t most = rows < lent->columns ? rows : lent->columns;
    size_t next = 0;
    size_t lowest = 0;
    for (size_t i = 0; i < 1024; i++) {
        row_flags[i] = column_flags[i] = 1;
    }
    while (counts[0] < most) {
        read_line(counts[0], lent->columns, lent->samples + next, rows, lent->v, lent->u + next, rows, lent->row);
        row_flags[next] = 0;
        lent->row_list[counts[2]++] = (uint16_t)next;
        size_t j = argmax(lent->row, column_flags, lent->columns);
        double size = size_of(lent->row[j]);
        if (restart ? size >= 0x1p-52 && column_flags[j] == 1 : !(size < 0x1p-52)) {
            numbers[1] = lesser(numbers[1], size);
            double norm = add_term(lent, counts[0]++, j, numbers);
            column_flags[j] = 0;
            if (norm <= tolerance * numbers[0]) {
                return BBFMM_STOP_TOLERABLE;
            }
            next = argmax(lent->column, row_flags, rows);
        } else if (!restart) {
            return BBFMM_STOP_SPENT;
        }
        if (restart && row_flags[next] == 0 && counts[0] < most) {
            next = lowest = lowest_unread(row_flags, rows, lowest);
            if (next == rows) {
                return BBFMM_STOP_ALL_TRIED;
            }
        }
    }
    return BBFMM_STOP_USED_UP;
}

uint8_t plain_aca_partial_pivoting(
    size_t rows, size_t columns, const double *restrict samples, size_t samples_length, double epsilon, bool restart,
    double *restrict u, size_t u_length, double *restrict v, size_t v_length, uint16_t *restrict row_list, size_t row_list_length,
    uint16_t *restrict column_list, size_t column_list_length, double *restrict row, size_t row_length, double *restrict column,
    size_t column_length, size_t *restrict counts, size_t counts_length, double *restrict numbers, size_t numbers_length)
{
    size_t most = rows < columns ? rows : columns;
    if (rows > 1024 || columns > 1024) {
        return BBFMM_NO_COUNT;
    }
    if (samples_length != rows * columns || u_length != most * rows || v_length != most * columns ||
        row_list_length != (restart ? rows : most) || column_list_length != most || row_length != columns || column_length != rows ||
        counts_length != 3 || numbers_length != 2) {
        return BBFMM_WRONG_LENGTH;
    }
    Lent lent = {rows, columns, samples, u, v, row_list, column_list, row, column};
    counts[0] = 0;
    counts[2] = 0;
    numbers[0] = 0;
    numbers[1] = 0;
    counts[1] = run(&lent, epsilon * epsilon, restart, counts, numbers);
    return 0;
}
