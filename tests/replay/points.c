/* Kind 5: the points of a target block. Kind 6: those of a source block; the case's rows are its reference. */
#include "replay.h"

static double points[12288];

void replay_points(Case c)
{
    double side;
    double nodes[16];
    size_t given = up_to(16, c.order);
    size_t count = up_to(3, c.dimension) * block(c.dimension, c.order);
    read_floats(&side, 1);
    read_floats(nodes, given);
    uint8_t refusal;
    if (c.kind == 5) {
        refusal = bbfmm_generate_chebyshev_target_points(c.dimension, c.order, side, nodes, given, points, count);
        printf("targets %zu %zu:", c.dimension, c.order);
    } else {
        refusal = bbfmm_generate_chebyshev_source_points(c.dimension, c.order, side, c.rows, nodes, given, points, count);
        printf("sources %zu %zu %zu:", c.dimension, c.order, c.rows);
    }
    put_answer(refusal, points, count);
    printf("\n");
}
