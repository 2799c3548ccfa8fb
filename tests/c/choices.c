/* Masked argmax and rank cutoff: document 01's results, and every refusal. */
#include "check.h"

static const double ENTRIES[3] = {1, -3, 3};
static const uint8_t ALL[3] = {1, 1, 1};
static const double MANY[1025];

static void test_argmax(void)
{
    const uint8_t two_of_three[3] = {1, 0, 1};
    const uint8_t no_mask[3] = {1, 2, 1};
    static const uint8_t many_bytes[1025];
    size_t place[1];
    CHECK(bbfmm_argmax_masked(LEND(ENTRIES), LEND(ALL), LEND(place)) == BBFMM_DONE && place[0] == 1);
    CHECK(bbfmm_argmax_masked(LEND(ENTRIES), LEND(two_of_three), LEND(place)) == BBFMM_DONE && place[0] == 2);
    CHECK(bbfmm_argmax_masked(ENTRIES, 0, ALL, 0, LEND(place)) == BBFMM_DONE && place[0] == 0);

    FILL(place);
    CHECK(bbfmm_argmax_masked(LEND(MANY), LEND(many_bytes), LEND(place)) == BBFMM_NO_COUNT);
    CHECK(bbfmm_argmax_masked(LEND(MANY), LEND(ALL), SHORT(place)) == BBFMM_NO_COUNT);
    CHECK(bbfmm_argmax_masked(LEND(ENTRIES), SHORT(ALL), LEND(place)) == BBFMM_WRONG_LENGTH);
    CHECK(bbfmm_argmax_masked(LEND(ENTRIES), LEND(ALL), SHORT(place)) == BBFMM_WRONG_LENGTH);
    CHECK(bbfmm_argmax_masked(LEND(ENTRIES), LEND(no_mask), SHORT(place)) == BBFMM_WRONG_LENGTH);
    CHECK(bbfmm_argmax_masked(LEND(ENTRIES), LEND(no_mask), LEND(place)) == BBFMM_NO_MASK);
    CHECK(KEPT(place));
}

static void test_cutoff(void)
{
    const double values[2] = {4, 3};
    const double ones[4] = {1, 1, 1, 1};
    const double zeros[2] = {0, 0};
    size_t place[1];
    CHECK(bbfmm_calculate_singular_values_cutoff(LEND(values), 0.5, LEND(place)) == BBFMM_DONE && place[0] == 2);
    CHECK(bbfmm_calculate_singular_values_cutoff(LEND(values), 0.75, LEND(place)) == BBFMM_DONE && place[0] == 1);
    CHECK(bbfmm_calculate_singular_values_cutoff(LEND(values), 2, LEND(place)) == BBFMM_DONE && place[0] == 0);
    CHECK(bbfmm_calculate_singular_values_cutoff(LEND(ones), 0.5, LEND(place)) == BBFMM_DONE && place[0] == 4);
    CHECK(bbfmm_calculate_singular_values_cutoff(LEND(zeros), 0.5, LEND(place)) == BBFMM_DONE && place[0] == 2);

    FILL(place);
    CHECK(bbfmm_calculate_singular_values_cutoff(values, 0, 0.5, LEND(place)) == BBFMM_NO_COUNT);
    CHECK(bbfmm_calculate_singular_values_cutoff(LEND(MANY), 0.5, SHORT(place)) == BBFMM_NO_COUNT);
    CHECK(bbfmm_calculate_singular_values_cutoff(LEND(values), 0.5, SHORT(place)) == BBFMM_WRONG_LENGTH);
    CHECK(KEPT(place));
}

void test_choices(void)
{
    test_argmax();
    test_cutoff();
}
