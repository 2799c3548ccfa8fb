/* Turning a block: vectors, references, tables. */
#include "plain.h"

static const size_t FACTORIALS[4] = {1, 1, 2, 6};
static const size_t ORDERS[6][3] = {{0, 1, 2}, {0, 2, 1}, {1, 0, 2}, {1, 2, 0}, {2, 0, 1}, {2, 1, 0}};
static const int32_t REFERENCES[16][3] = {
    {2, 0, 0}, {2, 1, 0}, {2, 1, 1}, {2, 2, 0}, {2, 2, 1}, {2, 2, 2}, {3, 0, 0}, {3, 1, 0},
    {3, 1, 1}, {3, 2, 0}, {3, 2, 1}, {3, 2, 2}, {3, 3, 0}, {3, 3, 1}, {3, 3, 2}, {3, 3, 3},
};
static const int32_t REFERENCES_2[7][3] = {{2, 0, 0}, {2, 1, 0}, {2, 2, 0}, {3, 0, 0}, {3, 1, 0}, {3, 2, 0}, {3, 3, 0}};

static size_t size_of(int32_t x)
{
    return (size_t)(x < 0 ? -x : x);
}

/* The number of the order by falling size, equals by axis number: each axis is put before those of smaller size. */
static size_t order_of(size_t dimension, const size_t *size, size_t *axes)
{
    for (size_t m = 0; m < dimension; m++) {
        size_t at = m;
        while (at > 0 && size[axes[at - 1]] < size[m]) {
            axes[at] = axes[at - 1];
            at--;
        }
        axes[at] = m;
    }
    if (dimension == 1) {
        return 0;
    }
    if (dimension == 2) {
        return axes[0];
    }
    return 2 * axes[0] + (axes[1] > axes[2]);
}

/* The lowest number that a vector brings. */
static uint8_t of_vector(size_t dimension, const int32_t *entry)
{
    if (dimension < 1 || dimension > 3) {
        return BBFMM_NO_DIMENSION;
    }
    for (size_t axis = 0; axis < dimension; axis++) {
        if (entry[axis] < -3 || entry[axis] > 3) {
            return BBFMM_NO_ENTRY;
        }
    }
    for (size_t axis = dimension; axis < 3; axis++) {
        if (entry[axis] != 0) {
            return BBFMM_NOT_ZERO;
        }
    }
    return 0;
}

uint8_t plain_look_up(size_t dimension, int32_t x, int32_t y, int32_t z, size_t *restrict answer, size_t answer_length)
{
    int32_t entry[3] = {x, y, z};
    uint8_t refused = of_vector(dimension, entry);
    if (refused != 0) {
        return refused;
    }
    if (answer_length != 4) {
        return BBFMM_WRONG_LENGTH;
    }
    size_t size[3];
    size_t axes[3];
    size_t index = 0;
    size_t signs = 0;
    size_t largest = 0;
    for (size_t axis = 0; axis < dimension; axis++) {
        size[axis] = size_of(entry[axis]);
        index = index * 7 + (size_t)(entry[axis] + 3);
        signs = signs * 2 + (entry[axis] >= 0);
        largest = largest < size[axis] ? size[axis] : largest;
    }
    size_t order = order_of(dimension, size, axes);
    size_t reference = 0;
    if (largest >= 2) {
        size_t a = size[axes[0]];
        size_t b = dimension > 1 ? size[axes[1]] : 0;
        size_t c = dimension > 2 ? size[axes[2]] : 0;
        reference = dimension == 1 ? a - 2 : dimension == 2 ? (a - 2) * 3 + b : (a - 2) * 6 + b * (b + 1) / 2 + c;
    }
    answer[0] = index;
    answer[1] = signs * FACTORIALS[dimension] + order;
    answer[2] = reference;
    answer[3] = largest < 2;
    return 0;
}

/* The entries of both tables at one node: its indices go to their axes, and back, reversed where an entry is negative. */
uint8_t plain_follow_node(
    size_t dimension, size_t order, int32_t x, int32_t y, int32_t z, size_t node, size_t *restrict answer, size_t answer_length)
{
    int32_t entry[3] = {x, y, z};
    uint8_t refused = of_vector(dimension, entry);
    if (refused == BBFMM_NO_DIMENSION || of_shape(dimension, order) != 0) {
        return of_shape(dimension, order);
    }
    if (refused == BBFMM_NO_ENTRY) {
        return refused;
    }
    if (node >= power(order, dimension)) {
        return BBFMM_NO_CASE;
    }
    if (refused != 0 || answer_length != 2) {
        return refused != 0 ? refused : BBFMM_WRONG_LENGTH;
    }
    size_t size[3], axes[3], index[3], to[3], from[3];
    for (size_t axis = dimension; axis > 0; axis--) {
        size[axis - 1] = size_of(entry[axis - 1]);
        index[axis - 1] = node % order;
        node /= order;
    }
    order_of(dimension, size, axes);
    for (size_t m = 0; m < dimension; m++) {
        size_t axis = axes[m];
        to[axis] = entry[axis] < 0 ? order - 1 - index[m] : index[m];
        from[m] = entry[axis] < 0 ? order - 1 - index[axis] : index[axis];
    }
    answer[0] = 0;
    answer[1] = 0;
    for (size_t axis = 0; axis < dimension; axis++) {
        answer[0] = answer[0] * order + to[axis];
        answer[1] = answer[1] * order + from[axis];
    }
    return 0;
}

uint8_t plain_reference_vector(size_t dimension, size_t number, int32_t *restrict vector, size_t vector_length)
{
    static const size_t MANY[4] = {0, 2, 7, 16};
    if (dimension < 1 || dimension > 3) {
        return BBFMM_NO_DIMENSION;
    }
    if (number >= MANY[dimension]) {
        return BBFMM_NO_CASE;
    }
    if (vector_length != 3) {
        return BBFMM_WRONG_LENGTH;
    }
    const int32_t *from = dimension == 3 ? REFERENCES[number] : dimension == 2 ? REFERENCES_2[number] : REFERENCES_2[3 * number];
    for (size_t axis = 0; axis < 3; axis++) {
        vector[axis] = from[axis];
    }
    return 0;
}

/* The image of node 0, and how far the image moves with the index on each axis of the reference, of three; absent axes come first. */
static size_t steps_of(size_t dimension, size_t order, size_t number, size_t *step, size_t *count)
{
    const size_t *axes = ORDERS[dimension < 3 ? 2 * (number % FACTORIALS[dimension]) : number % 6];
    size_t signs = number / FACTORIALS[dimension];
    size_t start = 0;
    for (size_t m = 0; m < 3; m++) {
        step[m] = 0;
        count[m] = 1;
    }
    for (size_t m = 0; m < dimension; m++) {
        size_t weight = 1;
        for (size_t axis = axes[m] + 1; axis < dimension; axis++) {
            weight *= order;
        }
        bool is_negative = (signs >> (dimension - 1 - axes[m]) & 1) == 0;
        start += is_negative ? weight * (order - 1) : 0;
        step[3 - dimension + m] = is_negative ? 0 - weight : weight;
        count[3 - dimension + m] = order;
    }
    return start;
}

static uint8_t of_table(size_t dimension, size_t order, size_t number, size_t length)
{
    if (of_shape(dimension, order) != 0) {
        return of_shape(dimension, order);
    }
    if (number >= ((size_t)1 << dimension) * FACTORIALS[dimension]) {
        return BBFMM_NO_CASE;
    }
    return length == power(order, dimension) ? 0 : BBFMM_WRONG_LENGTH;
}

uint8_t plain_combined_permutation(size_t dimension, size_t order, size_t number, uint16_t *restrict table, size_t table_length)
{
    uint8_t refused = of_table(dimension, order, number, table_length);
    if (refused != 0) {
        return refused;
    }
    size_t step[3];
    size_t count[3];
    size_t start = steps_of(dimension, order, number, step, count);
    for (size_t i = 0; i < count[0]; i++) {
        for (size_t j = 0; j < count[1]; j++) {
            for (size_t k = 0; k < count[2]; k++) {
                *table++ = (uint16_t)(start + i * step[0] + j * step[1] + k * step[2]);
            }
        }
    }
    return 0;
}

uint8_t plain_inverse_permutation(size_t dimension, size_t order, size_t number, uint16_t *restrict table, size_t table_length)
{
    uint8_t refused = of_table(dimension, order, number, table_length);
    if (refused != 0) {
        return refused;
    }
    size_t step[3];
    size_t count[3];
    size_t start = steps_of(dimension, order, number, step, count);
    uint16_t node = 0;
    for (size_t i = 0; i < count[0]; i++) {
        for (size_t j = 0; j < count[1]; j++) {
            for (size_t k = 0; k < count[2]; k++) {
                table[start + i * step[0] + j * step[1] + k * step[2]] = node++;
            }
        }
    }
    return 0;
}
