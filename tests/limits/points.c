/* Target and source points. */
#include "walk.h"

BUFFER(nodes, double, 40, 7);
BUFFER(points, double, 12300, 7);

/* Six dimensions, six orders, eight sides, four lengths for each of two buffers; and for sources eight references. */
static Outcome place(size_t k, bool are_sources)
{
    size_t dimension = dimension_at(take(&k, 6));
    size_t order = order_at(take(&k, 6));
    size_t side = take(&k, 8);
    bool fits = lend(&nodes, order, take(&k, 4));
    fits = lend(&points, product(dimension, power(dimension, order)), take(&k, 4)) && fits;
    uint8_t rest = first(unless(fits, BBFMM_WRONG_LENGTH), unless(is_side(side), BBFMM_NO_CELL));
    if (!are_sources) {
        uint8_t number = bbfmm_generate_chebyshev_target_points(dimension, order, side_at(side), LENT(nodes), LENT(points));
        return (Outcome){first(of_shape(dimension, order), rest), number, false};
    }
    size_t reference = number_at(k);
    uint8_t number =
        bbfmm_generate_chebyshev_source_points(dimension, order, side_at(side), reference, LENT(nodes), LENT(points));
    return (Outcome){first(of_shape(dimension, order), first(of_reference(dimension, reference), rest)), number, false};
}

static Outcome generate_chebyshev_target_points(size_t k)
{
    return place(k, false);
}

static Outcome generate_chebyshev_source_points(size_t k)
{
    return place(k, true);
}

void walk_points(void)
{
    Buffer *const lent[] = {&nodes, &points};
    WALK("generate_chebyshev_target_points", 6 * 6 * 8 * 4 * 4, generate_chebyshev_target_points, lent);
    WALK("generate_chebyshev_source_points", 6 * 6 * 8 * 4 * 4 * 8, generate_chebyshev_source_points, lent);
}
