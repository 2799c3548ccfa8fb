/* E11: nodes in a set, and the turn in floats. */
#include "../mirror/turned.h"
#include "cases.h"

void *memset(void *place, int byte, size_t bytes);

enum { PATTERN = 0xa5 };
static double nodes[MOST];

void answer_e11_nodes(void)
{
    size_t length = number("nodes_length");
    memset(nodes, PATTERN, sizeof nodes);
    uint8_t found = bbfmm_generate_node_set(number("p"), number("set"), nodes, length);
    hold_number("refusal", found);
    size_t written = found == BBFMM_DONE ? length : 0;
    if (found == BBFMM_DONE) {
        hold_reals("nodes", nodes, written);
    }
    for (size_t i = 0; i < sizeof(double) * (MOST - written); i++) {
        hold(((unsigned char *)(nodes + written))[i] == PATTERN, "what is past the nodes");
    }
}

static double size_of(double x)
{
    return x < 0 ? -x : x;
}

/* A node with another index on an axis. */
static size_t with_index(const Turned *turned, size_t axis, size_t node, size_t index)
{
    size_t step = 1;
    for (size_t a = axis + 1; a < turned->given.dimension; a++) {
        step *= turned->given.order;
    }
    return node - index_on(turned, axis, node) * step + index * step;
}

/* The sizes that the case lists, by axis, source index and target index; and whether every node of the block with these indices has the
   same size after the turn. */
void answer_e11_turn(void)
{
    static Turned turned;
    static double sizes[MOST];
    Given given = {.dimension = count_of("vector"), .order = number("p"), .set = number("set"), .side = real("length")};
    for (size_t a = 0; a < given.dimension; a++) {
        given.vector[a] = (int32_t)number_at("vector", a);
    }
    bool is_done = make_turned(&turned, &given);
    hold(is_done, "a call was refused");
    bool is_kept = is_done;
    size_t count = 0;
    for (size_t m = 0; m < given.dimension && is_done; m++) {
        for (size_t s = 0; s < given.order; s++) {
            for (size_t t = 0; t < given.order; t++) {
                sizes[count++] = size_of(before(&turned, with_index(&turned, m, 0, s), with_index(&turned, m, 0, t), m));
                for (size_t node = 0; node < turned.count; node++) {
                    size_t source = with_index(&turned, m, node, s), target = with_index(&turned, m, node, t);
                    is_kept = is_kept && is_same_size(before(&turned, source, target, m), after(&turned, source, target, m));
                }
            }
        }
    }
    hold_reals("sizes", sizes, count);
    hold_number("kept", is_kept);
}
