/* Blocks of distances: every limit with blocks that are small, or far too large; and both sides of the limit on nodes. */
#include "walk.h"

enum { MOST = 1024 };

BUFFER(nodes, double, 40, 7);
BUFFER(sources, double, 12300, 7);
BUFFER(targets, double, 12300, 7);
BUFFER(block, double, 11 * 11 * 11 * 11 * 11 * 11 + 3, 7);

/* The first reference number, the last, the next, and the largest number there is. */
static size_t reference_at(size_t dimension, size_t k)
{
    size_t count = 0;
    while (of_reference(dimension, count) == 0) {
        count++;
    }
    return (size_t[]){0, count > 0 ? count - 1 : 0, count, (size_t)-1}[k];
}

static Outcome sample(size_t dimension, size_t order, size_t side, size_t reference, bool fits)
{
    uint8_t shape = first(of_shape(dimension, order), unless(power(dimension, order) <= MOST, BBFMM_NO_COUNT));
    uint8_t rest = first(unless(fits, BBFMM_WRONG_LENGTH), unless(is_side(side), BBFMM_NO_CELL));
    uint8_t number = bbfmm_sample_distances(
        dimension, order, side_at(side), reference, LENT(nodes), LENT(sources), LENT(targets), LENT(block));
    return (Outcome){first(shape, first(of_reference(dimension, reference), rest)), number, false};
}

/* Six dimensions, six orders, eight sides, four references, four lengths for each of four buffers. Of these shapes only order 16 of
   dimension 3 has too many nodes. */
static Outcome sample_distances(size_t k)
{
    size_t dimension = dimension_at(take(&k, 6));
    size_t order = order_at(take(&k, 6));
    size_t side = take(&k, 8);
    size_t reference = reference_at(dimension, take(&k, 4));
    size_t count = power(dimension, order);
    bool fits = lend(&nodes, order, take(&k, 4));
    fits = lend(&sources, product(dimension, count), take(&k, 4)) && fits;
    fits = lend(&targets, product(dimension, count), take(&k, 4)) && fits;
    fits = lend(&block, product(count, count), k) && fits;
    return sample(dimension, order, side, reference, fits);
}

/* Orders 10 and 11 of dimension 3, whose 1,000 and 1,331 nodes are next to the limit: two sides, two references, four lengths for
   the block, and four for the other buffers alike. */
static Outcome sample_distances_at_the_count(size_t k)
{
    size_t order = 10 + take(&k, 2);
    size_t side = 3 + take(&k, 2);
    size_t reference = reference_at(3, 1 + take(&k, 2));
    size_t alike = take(&k, 4);
    size_t count = power(3, order);
    bool fits = lend(&nodes, order, alike);
    fits = lend(&sources, 3 * count, alike) && fits;
    fits = lend(&targets, 3 * count, alike) && fits;
    /* So long a block is more than `lend` goes to. */
    block.length = (size_t[]){count * count, count * count - 1, count * count + 1, 0}[k];
    return sample(3, order, side, reference, fits && block.length == count * count);
}

void walk_distances(void)
{
    Buffer *const lent[] = {&nodes, &sources, &targets, &block};
    WALK("sample_distances", 6 * 6 * 8 * 4 * 4 * 4 * 4 * 4, sample_distances, lent);
    WALK("sample_distances_at_the_count", 2 * 2 * 2 * 4 * 4, sample_distances_at_the_count, lent);
}
