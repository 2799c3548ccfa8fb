/* A call, and all that it leaves: every entry of every buffer and a few past it, by bits, any NaN being any NaN. */
#include "hold.h"
#include "../distances/draw.h"
#include "rule.h"

int printf(const char *format, ...);

enum { PRINTED = 10, COUNTS = 3, NUMBERS = 2 };

/* What stands in a buffer before a call: a float so large that it shows in any sum. */
static const uint64_t PATTERN = 0xc5a5a5a5a5a5a5a5;
static const uint16_t LISTED = 0xa5a5;

typedef struct {
    double u[LINE * LINE + PAST], v[LINE * LINE + PAST];
    uint16_t row_list[LINE + PAST], column_list[LINE + PAST];
    double row[LINE + PAST], column[LINE + PAST];
    size_t counts[COUNTS + PAST];
    double numbers[NUMBERS + PAST];
} Room;

double block[LINE * LINE];
Tally tally;
static Room ours, own;
static double samples[LINE * LINE + PAST];

/* Prints what is wrong, with a number: a place of a buffer, or what was told. */
static void fault(const Question *q, const char *what, size_t number)
{
    if (tally.faults++ >= PRINTED) {
        return;
    }
    printf("%zu rows, %zu columns, epsilon %a, %s mode: %s: %zu", q->rows, q->columns, q->epsilon, q->restart ? "restart" : "old",
        what, number);
    for (size_t i = 0; i < q->rows * q->columns && i < 16; i++) {
        printf("%s%a", i == 0 ? "; the block begins " : " ", block[i]);
    }
    printf("\n");
}

/* BUFFERS: each is so long, and a few entries are looked at past its end. */

static void fill_floats(double *buffer, size_t length)
{
    for (size_t i = 0; i < length + PAST; i++) {
        buffer[i] = float_of(PATTERN);
    }
}

static void fill_list(uint16_t *buffer, size_t length)
{
    for (size_t i = 0; i < length + PAST; i++) {
        buffer[i] = LISTED;
    }
}

static void fill(const Question *q, Room *room)
{
    fill_floats(room->u, q->rows * most_terms(q));
    fill_floats(room->v, q->columns * most_terms(q));
    fill_list(room->row_list, row_list_length(q));
    fill_list(room->column_list, most_terms(q));
    fill_floats(room->row, q->columns);
    fill_floats(room->column, q->rows);
    fill_floats(room->numbers, NUMBERS);
    for (size_t i = 0; i < COUNTS + PAST; i++) {
        room->counts[i] = PATTERN;
    }
}

static void hold_floats(const Question *q, const char *what, const double *found, const double *expected, size_t length)
{
    for (size_t i = 0; i < length + PAST; i++) {
        if (!is_same(found[i], expected[i])) {
            fault(q, what, i);
            return;
        }
    }
}

static void hold_list(const Question *q, const char *what, const uint16_t *found, const uint16_t *expected, size_t length)
{
    for (size_t i = 0; i < length + PAST; i++) {
        if (found[i] != expected[i]) {
            fault(q, what, i);
            return;
        }
    }
}

static void hold_rooms(const Question *q)
{
    static const char *const NAMES[COUNTS] = {"another rank", "another stop", "another number of rows read"};
    for (size_t i = 0; i < COUNTS + PAST; i++) {
        if (ours.counts[i] != own.counts[i]) {
            fault(q, i < COUNTS ? NAMES[i] : "changed past the counts", ours.counts[i]);
        }
    }
    hold_floats(q, "another estimate (0) or smallest pivot (1), or changed past them", ours.numbers, own.numbers, NUMBERS);
    hold_floats(q, "u differs", ours.u, own.u, q->rows * most_terms(q));
    hold_floats(q, "v differs", ours.v, own.v, q->columns * most_terms(q));
    hold_list(q, "the row list differs", ours.row_list, own.row_list, row_list_length(q));
    hold_list(q, "the column list differs", ours.column_list, own.column_list, most_terms(q));
    hold_floats(q, "the working row differs", ours.row, own.row, q->columns);
    hold_floats(q, "the working column differs", ours.column, own.column, q->rows);
}

/* The block must be as it was, the bits of its NaNs too. */
static void hold_samples(const Question *q)
{
    size_t entries = q->rows * q->columns;
    for (size_t i = 0; i < entries + PAST; i++) {
        if (bits_of(samples[i]) != (i < entries ? bits_of(block[i]) : PATTERN)) {
            fault(q, "a sample is changed", i);
            return;
        }
    }
}

/* FACTS of what came out, whatever the rule says. */

/* No place stands twice, and each is below a limit. */
static bool are_distinct(const uint16_t *list, size_t count, size_t limit)
{
    static size_t seen[65536];
    static size_t stamp;
    stamp++;
    for (size_t i = 0; i < count; i++) {
        if (list[i] >= limit || seen[list[i]] == stamp) {
            return false;
        }
        seen[list[i]] = stamp;
    }
    return true;
}

static void hold_restart_facts(const Question *q, size_t rank, size_t stop, size_t read)
{
    if (read > q->rows || !are_distinct(ours.row_list, read, q->rows)) {
        fault(q, "a row is read twice, or too many are", read);
        return;
    }
    if (!are_distinct(ours.column_list, rank, q->columns)) {
        fault(q, "a column is used twice", rank);
    }
    if (stop == BBFMM_STOP_SPENT) {
        fault(q, "restart mode has no such stop", stop);
    }
    if (stop == BBFMM_STOP_ALL_TRIED && (read != q->rows || rank == most_terms(q))) {
        fault(q, "stop 4 with a row unread or with all terms", read);
    }
    tally.without_pivot += read - rank;
}

static void hold_facts(const Question *q)
{
    size_t rank = ours.counts[RANK];
    size_t stop = ours.counts[STOP];
    size_t read = ours.counts[READ];
    if (rank > most_terms(q) || rank > read || stop < BBFMM_STOP_TOLERABLE || stop > BBFMM_STOP_ALL_TRIED) {
        fault(q, "a rank or a stop that no run has", stop);
        return;
    }
    if (stop == BBFMM_STOP_USED_UP && rank != most_terms(q)) {
        fault(q, "stop 3 with fewer terms", rank);
    }
    if (q->restart) {
        hold_restart_facts(q, rank, stop, read);
    } else if (stop == BBFMM_STOP_ALL_TRIED || read > most_terms(q)) {
        fault(q, "the old mode has no such stop, or read too many rows", stop);
    }
    double smallest = ours.numbers[SMALLEST];
    if (!(smallest >= 0x1p-52) && (bits_of(smallest) != 0 || (q->restart && rank > 0))) {
        fault(q, "a smallest pivot that no run has; the rank", rank);
    }
    tally.stops[q->restart][stop]++;
    for (size_t i = 0; i < read; i++) {
        tally.rows[own.row_list[i]]++;
    }
    for (size_t i = 0; i < rank; i++) {
        tally.columns[own.column_list[i]]++;
    }
}

/* BOTH MODES: where the old one meets no NaN, reads no row and no column twice and is not spent, restart mode does the same. */

static struct {
    size_t counts[COUNTS];
    double numbers[NUMBERS];
    uint16_t row_list[LINE], column_list[LINE];
} old;

static bool has_nan(const double *list, size_t count)
{
    for (size_t i = 0; i < count; i++) {
        if (list[i] != list[i]) {
            return true;
        }
    }
    return false;
}

/* Of what the old mode left. */
static bool missed_nothing(const Question *q)
{
    size_t rank = ours.counts[RANK];
    size_t read = ours.counts[READ];
    if (ours.counts[STOP] == BBFMM_STOP_SPENT || rank > most_terms(q) || read > most_terms(q)) {
        return false;
    }
    return are_distinct(ours.row_list, read, q->rows) && are_distinct(ours.column_list, rank, q->columns) &&
           !has_nan(ours.u, rank * q->rows) && !has_nan(ours.v, rank * q->columns);
}

static void remember(void)
{
    for (size_t i = 0; i < NUMBERS; i++) {
        old.numbers[i] = ours.numbers[i];
    }
    for (size_t i = 0; i < COUNTS; i++) {
        old.counts[i] = ours.counts[i];
    }
    for (size_t i = 0; i < old.counts[READ]; i++) {
        old.row_list[i] = ours.row_list[i];
    }
    for (size_t i = 0; i < old.counts[RANK]; i++) {
        old.column_list[i] = ours.column_list[i];
    }
}

static void hold_as_old(const Question *q)
{
    bool is_alike = is_same(ours.numbers[ESTIMATE], old.numbers[ESTIMATE]) && is_same(ours.numbers[SMALLEST], old.numbers[SMALLEST]);
    for (size_t i = 0; i < COUNTS; i++) {
        is_alike = is_alike && ours.counts[i] == old.counts[i];
    }
    for (size_t i = 0; is_alike && i < old.counts[READ]; i++) {
        is_alike = ours.row_list[i] == old.row_list[i];
    }
    for (size_t i = 0; is_alike && i < old.counts[RANK]; i++) {
        is_alike = ours.column_list[i] == old.column_list[i];
    }
    if (!is_alike) {
        fault(q, "not as in the old mode, which missed nothing; the stop", ours.counts[STOP]);
    }
    tally.alike++;
}

/* THE CALL */

static uint8_t ask(const Question *q)
{
    size_t most = most_terms(q);
    return bbfmm_aca_partial_pivoting(
        q->rows, q->columns, samples, q->rows * q->columns, q->epsilon, q->restart, ours.u, q->rows * most, ours.v, q->columns * most,
        ours.row_list, row_list_length(q), ours.column_list, most, ours.row, q->columns, ours.column, q->rows, ours.counts, COUNTS,
        ours.numbers, NUMBERS);
}

static void try_mode(const Question *q)
{
    Memory m = {own.u, own.v, own.row_list, own.column_list, own.row, own.column, own.counts, own.numbers};
    fill(q, &ours);
    fill(q, &own);
    fill_floats(samples, q->rows * q->columns);
    for (size_t i = 0; i < q->rows * q->columns; i++) {
        samples[i] = block[i];
    }
    uint8_t number = ask(q);
    if (number != BBFMM_DONE) {
        fault(q, "refused", number);
    }
    follow_rule(q, &m);
    hold_rooms(q);
    hold_samples(q);
    hold_facts(q);
    tally.runs++;
}

void try_block(size_t rows, size_t columns, double epsilon)
{
    Question q = {rows, columns, block, epsilon, false};
    try_mode(&q);
    bool must_agree = missed_nothing(&q);
    if (must_agree) {
        remember();
    }
    q.restart = true;
    try_mode(&q);
    if (must_agree) {
        hold_as_old(&q);
    }
}
