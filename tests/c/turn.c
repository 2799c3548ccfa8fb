/* Turning a block: document 01's vectors and table, reference vectors, and every refusal. */
#include "check.h"

static void test_look_up(void)
{
    size_t answer[4];
    CHECK(bbfmm_look_up(3, 0, -2, 1, LEND(answer)) == BBFMM_DONE);
    CHECK(HOLDS(answer, (size_t[]){158, 33, 1, 0}));
    CHECK(bbfmm_look_up(1, -3, 0, 0, LEND(answer)) == BBFMM_DONE);
    CHECK(HOLDS(answer, (size_t[]){0, 0, 1, 0}));
    CHECK(bbfmm_look_up(2, 3, 3, 0, LEND(answer)) == BBFMM_DONE);
    CHECK(HOLDS(answer, (size_t[]){48, 6, 6, 0}));
    CHECK(bbfmm_look_up(2, 1, -1, 0, LEND(answer)) == BBFMM_DONE);
    CHECK(HOLDS(answer, (size_t[]){30, 4, 0, 1}));

    FILL(answer);
    CHECK(bbfmm_look_up(0, 0, -2, 1, LEND(answer)) == BBFMM_NO_DIMENSION);
    CHECK(bbfmm_look_up(4, 0, -2, 1, SHORT(answer)) == BBFMM_NO_DIMENSION);
    CHECK(bbfmm_look_up(3, 0, -2, 4, LEND(answer)) == BBFMM_NO_ENTRY);
    CHECK(bbfmm_look_up(3, 0, -2, -2147483647 - 1, SHORT(answer)) == BBFMM_NO_ENTRY);
    CHECK(bbfmm_look_up(2, 0, -2, 1, LEND(answer)) == BBFMM_NOT_ZERO);
    CHECK(bbfmm_look_up(2, 0, -2, 1, SHORT(answer)) == BBFMM_NOT_ZERO);
    CHECK(bbfmm_look_up(3, 0, -2, 1, SHORT(answer)) == BBFMM_WRONG_LENGTH);
    CHECK(KEPT(answer));
}

static void test_follow_node(void)
{
    size_t answer[2];
    CHECK(bbfmm_follow_node(2, 2, 0, -2, 0, 0, LEND(answer)) == BBFMM_DONE);
    CHECK(HOLDS(answer, (size_t[]){1, 2}));
    CHECK(bbfmm_follow_node(3, 16, 1, -1, 0, 4095, LEND(answer)) == BBFMM_DONE);

    FILL(answer);
    CHECK(bbfmm_follow_node(0, 2, 0, 4, 1, 4, LEND(answer)) == BBFMM_NO_DIMENSION);
    CHECK(bbfmm_follow_node(4, 17, 0, 4, 1, 4, SHORT(answer)) == BBFMM_NO_DIMENSION);
    CHECK(bbfmm_follow_node(2, 17, 0, 4, 1, 4, LEND(answer)) == BBFMM_NO_ORDER);
    CHECK(bbfmm_follow_node(2, 2, 0, 4, 1, 4, LEND(answer)) == BBFMM_NO_ENTRY);
    CHECK(bbfmm_follow_node(2, 2, -2147483647 - 1, 0, 1, 4, SHORT(answer)) == BBFMM_NO_ENTRY);
    CHECK(bbfmm_follow_node(2, 2, 0, 3, 1, 4, LEND(answer)) == BBFMM_NO_CASE);
    CHECK(bbfmm_follow_node(2, 2, 0, 3, 1, (size_t)-1, SHORT(answer)) == BBFMM_NO_CASE);
    CHECK(bbfmm_follow_node(2, 2, 0, 3, 1, 3, SHORT(answer)) == BBFMM_NOT_ZERO);
    CHECK(bbfmm_follow_node(2, 2, 0, 3, 0, 3, SHORT(answer)) == BBFMM_WRONG_LENGTH);
    CHECK(KEPT(answer));
}

/* Every node of a sample of vectors, near ones too, beside both tables of the vector's case. */
static void test_follow_tables(void)
{
    static uint16_t table[4096], inverse[4096];
    static const int32_t VECTORS[6][3] = {{0, -2, 1}, {-3, 2, -2}, {1, -1, 0}, {0, 0, 0}, {3, 3, 3}, {-1, 2, -3}};
    size_t differ = 0;
    for (size_t k = 0; k < 6; k++) {
        const int32_t *v = VECTORS[k];
        size_t known[4], answer[2];
        CHECK(bbfmm_look_up(3, v[0], v[1], v[2], LEND(known)) == BBFMM_DONE);
        CHECK(bbfmm_combined_permutation(3, 16, known[1], LEND(table)) == BBFMM_DONE);
        CHECK(bbfmm_inverse_permutation(3, 16, known[1], LEND(inverse)) == BBFMM_DONE);
        for (size_t n = 0; n < 4096; n++) {
            uint8_t number = bbfmm_follow_node(3, 16, v[0], v[1], v[2], n, LEND(answer));
            differ += number != BBFMM_DONE || answer[0] != table[n] || answer[1] != inverse[n];
        }
    }
    CHECK(differ == 0);
}

static void test_reference_vector(void)
{
    int32_t vector[3];
    CHECK(bbfmm_reference_vector(1, 1, LEND(vector)) == BBFMM_DONE);
    CHECK(HOLDS(vector, (int32_t[]){3, 0, 0}));
    CHECK(bbfmm_reference_vector(2, 6, LEND(vector)) == BBFMM_DONE);
    CHECK(HOLDS(vector, (int32_t[]){3, 3, 0}));
    CHECK(bbfmm_reference_vector(3, 4, LEND(vector)) == BBFMM_DONE);
    CHECK(HOLDS(vector, (int32_t[]){2, 2, 1}));

    FILL(vector);
    CHECK(bbfmm_reference_vector(4, 0, LEND(vector)) == BBFMM_NO_DIMENSION);
    CHECK(bbfmm_reference_vector(3, 16, LEND(vector)) == BBFMM_NO_CASE);
    CHECK(bbfmm_reference_vector(3, 16, SHORT(vector)) == BBFMM_NO_CASE);
    CHECK(bbfmm_reference_vector(3, 15, SHORT(vector)) == BBFMM_WRONG_LENGTH);
    CHECK(KEPT(vector));
}

static void test_tables(void)
{
    uint16_t table[4];
    CHECK(bbfmm_combined_permutation(2, 2, 3, LEND(table)) == BBFMM_DONE);
    CHECK(HOLDS(table, (uint16_t[]){2, 0, 3, 1}));
    CHECK(bbfmm_inverse_permutation(2, 2, 3, LEND(table)) == BBFMM_DONE);
    CHECK(HOLDS(table, (uint16_t[]){1, 3, 0, 2}));

    FILL(table);
    CHECK(bbfmm_combined_permutation(0, 2, 3, LEND(table)) == BBFMM_NO_DIMENSION);
    CHECK(bbfmm_combined_permutation(2, 17, 3, LEND(table)) == BBFMM_NO_ORDER);
    CHECK(bbfmm_combined_permutation(2, 2, 8, SHORT(table)) == BBFMM_NO_CASE);
    CHECK(bbfmm_combined_permutation(2, 2, 7, SHORT(table)) == BBFMM_WRONG_LENGTH);
    CHECK(KEPT(table));
    CHECK(bbfmm_inverse_permutation(4, 2, 3, LEND(table)) == BBFMM_NO_DIMENSION);
    CHECK(bbfmm_inverse_permutation(2, 0, 3, LEND(table)) == BBFMM_NO_ORDER);
    CHECK(bbfmm_inverse_permutation(2, 2, 8, SHORT(table)) == BBFMM_NO_CASE);
    CHECK(bbfmm_inverse_permutation(2, 2, 7, SHORT(table)) == BBFMM_WRONG_LENGTH);
    CHECK(KEPT(table));
}

void test_turn(void)
{
    test_look_up();
    test_follow_node();
    test_follow_tables();
    test_reference_vector();
    test_tables();
}
