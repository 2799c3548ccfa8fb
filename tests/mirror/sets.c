/* Holds both sets of nodes to the rule, from the Rust's nodes as the other call gives them: every order, by bits. */
#include "bbfmm.h"

int printf(const char *format, ...);
void *memcpy(void *to, const void *from, size_t bytes);

static uint64_t bits_of(double x)
{
    uint64_t bits;
    memcpy(&bits, &x, sizeof bits);
    return bits;
}

/* Node i of an order in set 1: the upper half of the Rust's, the same with the sign bit turned below, and no bit in the middle. */
static uint64_t ruled(const double *rusts, size_t order, size_t i)
{
    if (2 * i + 1 == order) {
        return 0;
    }
    return 2 * i + 1 > order ? bits_of(rusts[i]) : bits_of(rusts[order - 1 - i]) ^ (uint64_t)1 << 63;
}

int main(void)
{
    double rusts[16], first[16], second[16];
    size_t nodes = 0, faults = 0, moved = 0;
    for (size_t order = 1; order <= 16; order++) {
        faults += bbfmm_generate_chebyshev_nodes(order, rusts, order) != BBFMM_DONE;
        faults += bbfmm_generate_node_set(order, BBFMM_SET_RUST, first, order) != BBFMM_DONE;
        faults += bbfmm_generate_node_set(order, BBFMM_SET_MIRROR_EXACT, second, order) != BBFMM_DONE;
        for (size_t i = 0; i < order; i++) {
            faults += bits_of(first[i]) != bits_of(rusts[i]);
            faults += bits_of(second[i]) != ruled(rusts, order, i);
            moved += bits_of(second[i]) != bits_of(rusts[i]);
            nodes++;
        }
    }
    printf("tests/mirror: %zu nodes of 16 orders in both sets, %zu wrong; at %zu set 1 has another float than set 0\n", nodes, faults,
        moved);
    return faults > 0;
}
