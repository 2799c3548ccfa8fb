/* A call on a block, and all that it leaves. */
#include "lend.h"
#include "../distances/draw.h"

/* What stands in a buffer before a call: a float so large that it shows in any sum. */
static const uint64_t PATTERN = 0xc5a5a5a5a5a5a5a5;
static const uint16_t LISTED = 0xa5a5;

static size_t most_terms(const Question *q)
{
    return q->rows < q->columns ? q->rows : q->columns;
}

static size_t row_places(const Question *q)
{
    return q->restart ? q->rows : most_terms(q);
}

static void fill_floats(double *buffer, size_t length)
{
    for (size_t i = 0; i < length + PAST; i++) {
        buffer[i] = float_of(PATTERN);
    }
}

static void fill_list(uint16_t *buffer, size_t length)
{
    for (size_t i = 0; i < length + PAST; i++) {
        buffer[i] = LISTED;
    }
}

static void fill(const Question *q, Room *room)
{
    fill_floats(room->u, q->rows * most_terms(q));
    fill_floats(room->v, q->columns * most_terms(q));
    fill_list(room->row_list, row_places(q));
    fill_list(room->column_list, most_terms(q));
    fill_floats(room->row, q->columns);
    fill_floats(room->column, q->rows);
    fill_floats(room->numbers, NUMBERS);
    for (size_t i = 0; i < COUNTS + PAST; i++) {
        room->counts[i] = PATTERN;
    }
}

uint8_t ask(const Question *q, const double *samples, Room *room)
{
    size_t most = most_terms(q);
    fill(q, room);
    return bbfmm_aca_partial_pivoting(
        q->rows, q->columns, samples, q->rows * q->columns, q->epsilon, q->restart, room->u, q->rows * most, room->v, q->columns * most,
        room->row_list, row_places(q), room->column_list, most, room->row, q->columns, room->column, q->rows, room->counts, COUNTS,
        room->numbers, NUMBERS);
}

static bool are_floats_same(const double *left, const double *right, size_t length)
{
    for (size_t i = 0; i < length + PAST; i++) {
        if (!is_same(left[i], right[i])) {
            return false;
        }
    }
    return true;
}

static bool are_lists_same(const uint16_t *left, const uint16_t *right, size_t length)
{
    for (size_t i = 0; i < length + PAST; i++) {
        if (left[i] != right[i]) {
            return false;
        }
    }
    return true;
}

static bool are_counts_same(const size_t *left, const size_t *right)
{
    for (size_t i = 0; i < COUNTS + PAST; i++) {
        if (left[i] != right[i]) {
            return false;
        }
    }
    return true;
}

const char *difference(const Question *q, const Room *left, const Room *right)
{
    size_t most = most_terms(q);
    if (!are_counts_same(left->counts, right->counts)) {
        return "the rank, the stop or the rows read differ";
    }
    if (!are_floats_same(left->numbers, right->numbers, NUMBERS)) {
        return "the estimate or the smallest pivot differs";
    }
    if (!are_floats_same(left->u, right->u, q->rows * most) || !are_floats_same(left->v, right->v, q->columns * most)) {
        return "a factor differs";
    }
    if (!are_lists_same(left->row_list, right->row_list, row_places(q)) || !are_lists_same(left->column_list, right->column_list, most)) {
        return "a list differs";
    }
    if (!are_floats_same(left->row, right->row, q->columns) || !are_floats_same(left->column, right->column, q->rows)) {
        return "a working line differs";
    }
    return 0;
}

void mark_listed(const Question *q, const Room *room, Listed *listed)
{
    for (size_t i = 0; i < q->rows; i++) {
        listed->rows[i] = false;
    }
    for (size_t j = 0; j < q->columns; j++) {
        listed->columns[j] = false;
    }
    for (size_t k = 0; k < room->counts[READ] && k < row_places(q); k++) {
        listed->rows[room->row_list[k] % LINE] = true;
    }
    for (size_t k = 0; k < room->counts[RANK] && k < most_terms(q); k++) {
        listed->columns[room->column_list[k] % LINE] = true;
    }
}

bool is_outside(const Listed *listed, size_t row, size_t column)
{
    return !listed->rows[row] && !listed->columns[column];
}
