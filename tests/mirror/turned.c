/* A block and the block that it is turned onto, as the calls give them. */
#include "turned.h"

void *memcpy(void *to, const void *from, size_t bytes);

static int32_t size_of(int32_t entry)
{
    return entry < 0 ? -entry : entry;
}

/* The axes by falling size, ties by axis number. */
static void sort_axes(Turned *turned)
{
    for (size_t a = 0; a < turned->given.dimension; a++) {
        size_t place = a;
        for (; place > 0; place--) {
            size_t earlier = turned->axes[place - 1];
            if (size_of(turned->given.vector[earlier]) >= size_of(turned->given.vector[a])) {
                break;
            }
            turned->axes[place] = earlier;
        }
        turned->axes[place] = a;
    }
}

bool make_turned(Turned *turned, const Given *given)
{
    size_t dimension = given->dimension;
    size_t order = given->order;
    size_t known[4];
    turned->given = *given;
    turned->count = 1;
    for (size_t a = 0; a < dimension; a++) {
        turned->count *= order;
    }
    size_t points = dimension * turned->count;
    sort_axes(turned);
    return bbfmm_look_up(dimension, given->vector[0], given->vector[1], given->vector[2], known, 4) == BBFMM_DONE && known[3] == 0 &&
           bbfmm_generate_node_set(order, given->set, turned->nodes, order) == BBFMM_DONE &&
           bbfmm_generate_chebyshev_target_points(dimension, order, given->side, turned->nodes, order, turned->targets, points) ==
               BBFMM_DONE &&
           bbfmm_generate_chebyshev_source_points(
               dimension, order, given->side, known[2], turned->nodes, order, turned->sources, points) == BBFMM_DONE &&
           bbfmm_combined_permutation(dimension, order, known[1], turned->table, turned->count) == BBFMM_DONE;
}

size_t index_on(const Turned *turned, size_t axis, size_t node)
{
    for (size_t a = turned->given.dimension - 1; a > axis; a--) {
        node /= turned->given.order;
    }
    return node % turned->given.order;
}

double before(const Turned *turned, size_t source, size_t target, size_t axis)
{
    size_t column = axis * turned->count;
    return turned->sources[column + source] - turned->targets[column + target];
}

/* No call has source points of a vector that is no reference, so document 01's rule for them stands here. */
double after(const Turned *turned, size_t source, size_t target, size_t axis)
{
    size_t on = turned->axes[axis];
    double node = turned->nodes[index_on(turned, on, turned->table[source])];
    double coordinate = ((double)turned->given.vector[on] + node * 0.5) * turned->given.side;
    return coordinate - turned->targets[on * turned->count + turned->table[target]];
}

bool is_same_size(double left, double right)
{
    uint64_t bits[2];
    memcpy(&bits[0], &left, sizeof left);
    memcpy(&bits[1], &right, sizeof right);
    return bits[0] << 1 == bits[1] << 1;
}
