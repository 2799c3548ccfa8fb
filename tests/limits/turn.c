/* Looking up, reference vectors and the two tables. */
#include "walk.h"

BUFFER(answer, size_t, 8, 77);
BUFFER(vector, int32_t, 8, 77);
BUFFER(table, uint16_t, 4100, 9999);

static int32_t entry_at(size_t k)
{
    return (int32_t[]){0, 3, -3, 4, -4, 2147483647, -2147483647 - 1}[k];
}

static bool is_entry(int32_t x)
{
    return -3 <= x && x <= 3;
}

/* The first entries, as many as the dimension, are entries; and those past them are zeros. */
static bool are_entries(size_t dimension, const int32_t *entry)
{
    bool are = true;
    for (size_t axis = 0; axis < 3; axis++) {
        are = are && (axis >= dimension || is_entry(entry[axis]));
    }
    return are;
}

static bool are_zeros(size_t dimension, const int32_t *entry)
{
    bool are = true;
    for (size_t axis = 0; axis < 3; axis++) {
        are = are && (axis < dimension || entry[axis] == 0);
    }
    return are;
}

/* Six dimensions, seven numbers for each of three entries, four lengths. */
static Outcome look_up(size_t k)
{
    size_t dimension = dimension_at(take(&k, 6));
    int32_t entry[3];
    for (size_t axis = 0; axis < 3; axis++) {
        entry[axis] = entry_at(take(&k, 7));
    }
    bool fits = lend(&answer, 4, k);
    uint8_t vector_number =
        first(unless(are_entries(dimension, entry), BBFMM_NO_ENTRY), unless(are_zeros(dimension, entry), BBFMM_NOT_ZERO));
    uint8_t expected = first(of_shape(dimension, 1), first(vector_number, unless(fits, BBFMM_WRONG_LENGTH)));
    return (Outcome){expected, bbfmm_look_up(dimension, entry[0], entry[1], entry[2], LENT(answer)), false};
}

/* Six dimensions, six orders, seven numbers for each of three entries, four nodes, four lengths. */
static Outcome follow_node(size_t k)
{
    size_t dimension = dimension_at(take(&k, 6));
    size_t order = order_at(take(&k, 6));
    int32_t entry[3];
    for (size_t axis = 0; axis < 3; axis++) {
        entry[axis] = entry_at(take(&k, 7));
    }
    size_t nodes = power(dimension, order);
    size_t node = (size_t[]){0, nodes - 1, nodes, (size_t)-1}[take(&k, 4)];
    bool fits = lend(&answer, 2, k);
    uint8_t expected = first(of_shape(dimension, order), unless(are_entries(dimension, entry), BBFMM_NO_ENTRY));
    expected = first(expected, unless(node < nodes, BBFMM_NO_CASE));
    expected = first(expected, first(unless(are_zeros(dimension, entry), BBFMM_NOT_ZERO), unless(fits, BBFMM_WRONG_LENGTH)));
    uint8_t number = bbfmm_follow_node(dimension, order, entry[0], entry[1], entry[2], node, LENT(answer));
    return (Outcome){expected, number, false};
}

/* Six dimensions, eight numbers, four lengths. */
static Outcome reference_vector(size_t k)
{
    size_t dimension = dimension_at(take(&k, 6));
    size_t number = number_at(take(&k, 8));
    bool fits = lend(&vector, 3, k);
    uint8_t expected = first(of_reference(dimension, number), unless(fits, BBFMM_WRONG_LENGTH));
    return (Outcome){expected, bbfmm_reference_vector(dimension, number, LENT(vector)), false};
}

static size_t case_at(size_t k)
{
    return (size_t[]){0, 1, 2, 7, 8, 47, 48, (size_t)-1}[k];
}

typedef uint8_t Permutation(size_t dimension, size_t order, size_t number, uint16_t *place, size_t length);

/* Six dimensions, six orders, eight cases, four lengths. */
static Outcome permutation(size_t k, Permutation *call)
{
    size_t dimension = dimension_at(take(&k, 6));
    size_t order = order_at(take(&k, 6));
    size_t number = case_at(take(&k, 8));
    bool fits = lend(&table, power(dimension, order), k);
    uint8_t expected = of_shape(dimension, order);
    if (expected == 0) {
        expected = first(unless(number < (size_t[]){0, 2, 8, 48}[dimension], BBFMM_NO_CASE), unless(fits, BBFMM_WRONG_LENGTH));
    }
    return (Outcome){expected, call(dimension, order, number, LENT(table)), false};
}

static Outcome combined_permutation(size_t k)
{
    return permutation(k, bbfmm_combined_permutation);
}

static Outcome inverse_permutation(size_t k)
{
    return permutation(k, bbfmm_inverse_permutation);
}

void walk_turn(void)
{
    Buffer *const answers[] = {&answer};
    Buffer *const vectors[] = {&vector};
    Buffer *const tables[] = {&table};
    WALK("look_up", 6 * 7 * 7 * 7 * 4, look_up, answers);
    WALK("follow_node", 6 * 6 * 7 * 7 * 7 * 4 * 4, follow_node, answers);
    WALK("reference_vector", 6 * 8 * 4, reference_vector, vectors);
    WALK("combined_permutation", 6 * 6 * 8 * 4, combined_permutation, tables);
    WALK("inverse_permutation", 6 * 6 * 8 * 4, inverse_permutation, tables);
}
