/* Masked argmax and the rank cutoff. */
#include "walk.h"

BUFFER(entries, double, 2000, 7);
BUFFER(mask, uint8_t, 2001, 1);
BUFFER(place, size_t, 4, 77);

static size_t count_at(size_t k)
{
    return (size_t[]){0, 1, 3, 1024, 1025, 2000}[k];
}

/* Six counts of entries, four lengths of the mask, four bytes at its first or its last place, four lengths of the answer. */
static Outcome argmax_masked(size_t k)
{
    entries.length = count_at(take(&k, 6));
    bool fits = lend(&mask, entries.length, take(&k, 4));
    uint8_t byte = (uint8_t[]){0, 1, 2, 255}[take(&k, 4)];
    size_t at = take(&k, 2) == 0 || mask.length == 0 ? 0 : mask.length - 1;
    fits = lend(&place, 1, k) && fits;
    mask_place[at] = byte;
    uint8_t expected = first(unless(entries.length <= 1024, BBFMM_NO_COUNT), unless(fits, BBFMM_WRONG_LENGTH));
    expected = first(expected, unless(mask.length == 0 || byte <= 1, BBFMM_NO_MASK));
    uint8_t number = bbfmm_argmax_masked(LENT(entries), LENT(mask), LENT(place));
    bool is_changed = mask_place[at] != byte;
    mask_place[at] = 1;
    return (Outcome){expected, number, is_changed};
}

/* Six counts of values, four tolerances, of which none is refused, four lengths of the answer. */
static Outcome calculate_singular_values_cutoff(size_t k)
{
    double none = 0;
    entries.length = count_at(take(&k, 6));
    double epsilon = (double[]){0, 0.001, 1 / none, none / none}[take(&k, 4)];
    bool fits = lend(&place, 1, k);
    bool is_count = 1 <= entries.length && entries.length <= 1024;
    uint8_t expected = first(unless(is_count, BBFMM_NO_COUNT), unless(fits, BBFMM_WRONG_LENGTH));
    return (Outcome){expected, bbfmm_calculate_singular_values_cutoff(LENT(entries), epsilon, LENT(place)), false};
}

void walk_choices(void)
{
    Buffer *const of_argmax[] = {&entries, &mask, &place};
    Buffer *const of_cutoff[] = {&entries, &place};
    WALK("argmax_masked", 6 * 4 * 4 * 2 * 4, argmax_masked, of_argmax);
    WALK("calculate_singular_values_cutoff", 6 * 4 * 4, calculate_singular_values_cutoff, of_cutoff);
}
