/* The rule, a function an idea. What has been found are lists that grow: a row is unread if it is not in the row list, a column is
   unused if it is not in the column list. Every residual is worked out from the block and the terms, and kept nowhere else. */
#include "rule.h"

/* A pivot below this size is none. */
static const double LEAST = 0x1p-52;

/* What a step answers where the run goes on. */
enum { GOES_ON = 0 };

size_t most_terms(const Question *q)
{
    return q->rows < q->columns ? q->rows : q->columns;
}

size_t row_list_length(const Question *q)
{
    return q->restart ? q->rows : most_terms(q);
}

bool is_listed(const uint16_t *list, size_t count, size_t place)
{
    for (size_t i = 0; i < count; i++) {
        if (list[i] == place) {
            return true;
        }
    }
    return false;
}

static bool is_read(const Memory *m, size_t row)
{
    return is_listed(m->row_list, m->counts[READ], row);
}

static bool is_used(const Memory *m, size_t column)
{
    return is_listed(m->column_list, m->counts[RANK], column);
}

static double size_of(double x)
{
    return x < 0 ? -x : x;
}

/* A matrix product's sum: from +0.0, in rising index. */
static double dot(const double *left, const double *right, size_t count)
{
    double sum = 0;
    for (size_t i = 0; i < count; i++) {
        sum = sum + left[i] * right[i];
    }
    return sum;
}

/* An entry of the block less the earlier terms, which are summed first. */
static double residual(const Question *q, const Memory *m, size_t i, size_t j)
{
    double sum = 0;
    for (size_t term = 0; term < m->counts[RANK]; term++) {
        sum = sum + m->u[i + term * q->rows] * m->v[j + term * q->columns];
    }
    return q->samples[i + j * q->rows] - sum;
}

/* The first of the largest entries that are not masked, or 0 where none has a size above 0. */
static size_t largest(const double *line, size_t count, const Memory *m, bool is_masked(const Memory *, size_t))
{
    size_t place = 0;
    double best = 0;
    for (size_t k = 0; k < count; k++) {
        if (size_of(line[k]) > best && !is_masked(m, k)) {
            place = k;
            best = size_of(line[k]);
        }
    }
    return place;
}

/* In the old mode the pivot is what the search found, which may be a NaN or stand in a used column. In restart mode some unused column
   must have a residual of at least 2^-52; the search then finds the largest of these. */
static bool has_pivot(const Question *q, const Memory *m, size_t found)
{
    if (!q->restart) {
        return !(size_of(m->row[found]) < LEAST);
    }
    for (size_t j = 0; j < q->columns; j++) {
        if (!is_used(m, j) && size_of(m->row[j]) >= LEAST) {
            return true;
        }
    }
    return false;
}

static void read_row(const Question *q, Memory *m, size_t i)
{
    for (size_t j = 0; j < q->columns; j++) {
        m->row[j] = residual(q, m, i, j);
    }
    m->row_list[m->counts[READ]] = (uint16_t)i;
    m->counts[READ]++;
}

/* The row over its pivot, and the pivot's column. */
static void make_lines(const Question *q, Memory *m, size_t pivot)
{
    double factor = 1 / m->row[pivot];
    for (size_t j = 0; j < q->columns; j++) {
        m->row[j] = m->row[j] * factor;
    }
    for (size_t i = 0; i < q->rows; i++) {
        m->column[i] = residual(q, m, i, pivot);
    }
}

static double norm_of(const Question *q, const Memory *m)
{
    return dot(m->column, m->column, q->rows) * dot(m->row, m->row, q->columns);
}

static double cross_of(const Question *q, const Memory *m)
{
    double sum = 0;
    for (size_t term = 0; term < m->counts[RANK]; term++) {
        double columns_met = dot(m->u + term * q->rows, m->column, q->rows);
        double rows_met = dot(m->v + term * q->columns, m->row, q->columns);
        sum = sum + columns_met * rows_met;
    }
    return sum;
}

/* The smallest size among the pivots that are numbers, with one more of them; there is none yet where +0.0 stands. */
static void take_smallest(Memory *m, double pivot)
{
    double size = size_of(pivot);
    bool is_first = m->numbers[SMALLEST] == 0;
    if (size == size && (is_first || size < m->numbers[SMALLEST])) {
        m->numbers[SMALLEST] = size;
    }
}

static void store(const Question *q, Memory *m, size_t pivot)
{
    size_t rank = m->counts[RANK];
    for (size_t i = 0; i < q->rows; i++) {
        m->u[i + rank * q->rows] = m->column[i];
    }
    for (size_t j = 0; j < q->columns; j++) {
        m->v[j + rank * q->columns] = m->row[j];
    }
    m->column_list[rank] = (uint16_t)pivot;
    m->counts[RANK]++;
}

/* Goes on with the lowest unread row, or stops with 4 where there is none. */
static size_t go_to_lowest(const Question *q, const Memory *m, size_t *next)
{
    for (size_t i = 0; i < q->rows; i++) {
        if (!is_read(m, i)) {
            *next = i;
            return GOES_ON;
        }
    }
    return BBFMM_STOP_ALL_TRIED;
}

/* One row: with a pivot it becomes a term. Answers why the run ends, or that it goes on with the next row. */
static size_t step(const Question *q, Memory *m, size_t *next)
{
    read_row(q, m, *next);
    size_t pivot = largest(m->row, q->columns, m, is_used);
    if (!has_pivot(q, m, pivot)) {
        return q->restart ? go_to_lowest(q, m, next) : BBFMM_STOP_SPENT;
    }
    take_smallest(m, m->row[pivot]);
    make_lines(q, m, pivot);
    double norm = norm_of(q, m);
    m->numbers[ESTIMATE] = m->numbers[ESTIMATE] + (norm + 2 * cross_of(q, m));
    store(q, m, pivot);
    if (norm <= (q->epsilon * q->epsilon) * m->numbers[ESTIMATE]) {
        return BBFMM_STOP_TOLERABLE;
    }
    if (m->counts[RANK] == most_terms(q)) {
        return BBFMM_STOP_USED_UP;
    }
    *next = largest(m->column, q->rows, m, is_read);
    return q->restart && is_read(m, *next) ? go_to_lowest(q, m, next) : GOES_ON;
}

void follow_rule(const Question *q, Memory *m)
{
    size_t next = 0;
    size_t stop = most_terms(q) == 0 ? BBFMM_STOP_USED_UP : GOES_ON;
    m->counts[RANK] = 0;
    m->counts[READ] = 0;
    m->numbers[ESTIMATE] = 0;
    m->numbers[SMALLEST] = 0;
    while (stop == GOES_ON) {
        stop = step(q, m, &next);
    }
    m->counts[STOP] = stop;
}
