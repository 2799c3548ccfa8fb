/* E4: cross approximation, in the old mode and in restart mode. The cases of E8 and E10 list the same, and the smallest pivot. */
#include "cases.h"

void *memset(void *place, int byte, size_t bytes);
void *memcpy(void *to, const void *from, size_t bytes);
int memcmp(const void *left, const void *right, size_t bytes);

/* Room for the largest block of a case that is done, and a few entries past it. */
enum { ROOM = 256, LINE = 1024, PAST = 8, PATTERN = 0xa5 };

static double samples[MOST], before[MOST];
static double u[ROOM + PAST], v[ROOM + PAST], row[LINE + PAST], column[LINE + PAST];
static uint16_t row_list[LINE + PAST], column_list[LINE + PAST];
static size_t counts[3 + PAST];
static double numbers[2 + PAST];

static size_t lesser(size_t left, size_t right)
{
    return left < right ? left : right;
}

/* Whether a buffer holds nothing but the pattern from a byte on. */
static bool is_kept(const void *buffer, size_t from, size_t bytes)
{
    const unsigned char *byte = (const unsigned char *)buffer;
    for (size_t i = from; i < bytes; i++) {
        if (byte[i] != PATTERN) {
            return false;
        }
    }
    return true;
}
#define HOLD_PAST(buffer, entries) hold(is_kept((buffer), (entries) * sizeof(buffer)[0], sizeof(buffer)), "what is past " #buffer)

static void fill(void)
{
    memset(samples, PATTERN, sizeof samples);
    memset(u, PATTERN, sizeof u);
    memset(v, PATTERN, sizeof v);
    memset(row, PATTERN, sizeof row);
    memset(column, PATTERN, sizeof column);
    memset(row_list, PATTERN, sizeof row_list);
    memset(column_list, PATTERN, sizeof column_list);
    memset(counts, PATTERN, sizeof counts);
    memset(numbers, PATTERN, sizeof numbers);
}

static void hold_refused(void)
{
    HOLD_PAST(u, 0);
    HOLD_PAST(v, 0);
    HOLD_PAST(row_list, 0);
    HOLD_PAST(column_list, 0);
    HOLD_PAST(row, 0);
    HOLD_PAST(column, 0);
    HOLD_PAST(counts, 0);
    HOLD_PAST(numbers, 0);
}

static void hold_list(const char *name, const uint16_t *list, size_t count)
{
    static size_t numbers[LINE];
    for (size_t i = 0; i < count && i < LINE; i++) {
        numbers[i] = list[i];
    }
    hold_numbers(name, numbers, count);
}

/* The case does not list the working lines. The column is the last term's, or as lent where there is none; so is the row, where no row
   without a pivot came last, as is sure where the tolerance or the rank ended the run. */
static void hold_lines(size_t m, size_t n, size_t rank)
{
    bool is_last = counts[1] == BBFMM_STOP_TOLERABLE || counts[1] == BBFMM_STOP_USED_UP;
    if (rank > 0) {
        hold(are_alike(column, u + (rank - 1) * m, m), "column");
        hold(!is_last || are_alike(row, v + (rank - 1) * n, n), "row");
    }
    HOLD_PAST(column, rank > 0 ? m : 0);
    HOLD_PAST(row, counts[2] > 0 ? n : 0);
}

static void hold_done(size_t m, size_t n)
{
    size_t rank = counts[0];
    hold_number("rank", rank);
    hold_number("stop", counts[1]);
    if (rank > lesser(m, n) || counts[2] > m) {
        hold(false, "the report");
        return;
    }
    hold_reals("estimate", numbers, 1);
    hold_list("rows", row_list, counts[2]);
    hold_list("columns", column_list, rank);
    hold_reals("u", u, m * rank);
    hold_reals("v", v, n * rank);
    HOLD_PAST(u, m * rank);
    HOLD_PAST(v, n * rank);
    HOLD_PAST(row_list, counts[2]);
    HOLD_PAST(column_list, rank);
    HOLD_PAST(counts, 3);
    HOLD_PAST(numbers, 2);
    hold_lines(m, n, rank);
}

/* The call on a block of the case, with buffers of these lengths. */
static uint8_t call_on(const char *block, const size_t *lengths)
{
    size_t m = number("m");
    size_t n = number("n");
    fill();
    size_t entries = reals(block, samples, MOST);
    memcpy(before, samples, sizeof before);
    /* A case that is refused for its count does not ask how long the working lines are. */
    uint8_t found = bbfmm_aca_partial_pivoting(
        m, n, samples, entries, real("epsilon"), number("restart") == 1, u, lengths[0], v, lengths[1], row_list, lengths[2], column_list,
        lengths[3], row, lesser(n, LINE), column, lesser(m, LINE), counts, 3, numbers, 2);
    hold(memcmp(samples, before, sizeof before) == 0, "samples");
    return found;
}

const double *answer_cross(void)
{
    const size_t lengths[4] = {number_at("lengths", 0), number_at("lengths", 1), number_at("lengths", 2), number_at("lengths", 3)};
    uint8_t found = call_on("block", lengths);
    hold_number("refusal", found);
    if (found != BBFMM_DONE) {
        hold_refused();
        return 0;
    }
    hold_done(number("m"), number("n"));
    return numbers;
}

const double *answer_block(const char *block)
{
    size_t m = number("m");
    size_t n = number("n");
    size_t most = lesser(m, n);
    const size_t lengths[4] = {m * most, n * most, number("restart") == 1 ? m : most, most};
    hold(call_on(block, lengths) == BBFMM_DONE, "the number told");
    hold_done(m, n);
    return numbers;
}

void answer_e04_cross(void)
{
    answer_cross();
}
