/* E3: the square root, and blocks of distances. */
#include "cases.h"

void *memcpy(void *to, const void *from, size_t bytes);
void *memset(void *place, int byte, size_t bytes);
int memcmp(const void *left, const void *right, size_t bytes);

/* Room for the largest block that is taken, and for the points of the largest that can be asked for; a few entries past each. */
enum { LISTED = 1024, PAST = 8, PATTERN = 0xa5 };
static double nodes[MOST], before[MOST];
static double sources[3 * MOST + PAST], targets[3 * MOST + PAST], placed[3 * MOST];
static double block[1024 * 1024 + PAST];

void answer_e03_sqrt(void)
{
    static double xs[MOST], roots[MOST];
    size_t count = reals("xs", xs, MOST);
    for (size_t i = 0; i < count; i++) {
        roots[i] = bbfmm_square_root(xs[i]);
    }
    hold_reals("roots", roots, count);
}

/* Whether a buffer holds nothing but the pattern from an entry on. */
static bool is_kept(const double *buffer, size_t from, size_t count)
{
    const unsigned char *byte = (const unsigned char *)(buffer + from);
    for (size_t i = 0; i < (count - from) * sizeof(double); i++) {
        if (byte[i] != PATTERN) {
            return false;
        }
    }
    return true;
}

/* Holds what the call may not have changed: the nodes, the points past so many entries, and the block past so many. */
static void hold_past(size_t points, size_t entries)
{
    hold(memcmp(nodes, before, sizeof nodes) == 0, "nodes");
    hold(is_kept(sources, points, sizeof sources / sizeof(double)), "what is past the sources");
    hold(is_kept(targets, points, sizeof targets / sizeof(double)), "what is past the targets");
    hold(is_kept(block, entries, sizeof block / sizeof(double)), "what is past the block");
}

/* The case does not list the points: they must be those that the two point calls leave. */
static void hold_points(size_t node_count, size_t points)
{
    size_t dimension = number("d");
    size_t order = number("p");
    double length = real("length");
    size_t reference = number("reference");
    bool is_done = bbfmm_generate_chebyshev_source_points(
        dimension, order, length, reference, nodes, node_count, placed, points) == BBFMM_DONE;
    hold(is_done && are_alike(sources, placed, points), "sources");
    is_done =
        bbfmm_generate_chebyshev_target_points(dimension, order, length, nodes, node_count, placed, points) == BBFMM_DONE;
    hold(is_done && are_alike(targets, placed, points), "targets");
}

void answer_e03_sampler(void)
{
    size_t dimension = number("d");
    size_t order = number("p");
    size_t entries = number("block_length");
    /* A case that is refused for its shape does not ask how long the points are. */
    size_t points = 1 <= dimension && dimension <= 3 && order <= 16 ? dimension : 0;
    for (size_t a = 0; a < dimension && points > 0; a++) {
        points *= order;
    }
    memset(nodes, PATTERN, sizeof nodes);
    memset(sources, PATTERN, sizeof sources);
    memset(targets, PATTERN, sizeof targets);
    memset(block, PATTERN, sizeof block);
    size_t node_count = reals("nodes", nodes, MOST);
    memcpy(before, nodes, sizeof nodes);
    uint8_t found = bbfmm_sample_distances(
        dimension, order, real("length"), number("reference"), nodes, node_count, sources, points, targets, points, block, entries);
    hold_number("refusal", found);
    if (found != BBFMM_DONE) {
        hold_past(0, 0);
        return;
    }
    hold_past(points, entries);
    hold_points(node_count, points);
    if (entries > LISTED) {
        hold_checksum("block_fnv", block, entries);
    } else {
        hold_reals("block", block, entries);
    }
}
