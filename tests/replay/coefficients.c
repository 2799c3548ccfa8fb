/* Kind 7: a cell's points scaled, and the coefficients there; where the flag is set, those of gradients too. The scaled points come
   first. The Rust does all this in one call; of ours, which are two, the lower number is told. */
#include "replay.h"

enum { ROOM = 65536 };

static double points[12288];
static double values[ROOM];
static double gradients[3 * ROOM];
static double factors[ROOM];
static double slopes[ROOM];

/* 0 is none. */
static uint8_t lower(uint8_t a, uint8_t b)
{
    return a == 0 || (b != 0 && b < a) ? b : a;
}

void replay_coefficients(Case c)
{
    double side;
    double centre[3];
    double polynomials[256];
    size_t axes = up_to(3, c.dimension);
    size_t rows = up_to(4096, c.rows);
    size_t each = up_to(ROOM, block(c.dimension, c.order) * rows);
    size_t of_axes = up_to(ROOM, axes * up_to(16, c.order) * rows);
    read_floats(&side, 1);
    read_floats(centre, axes);
    read_floats(polynomials, square(c.order));
    read_floats(points, axes * rows);
    uint8_t scaling = bbfmm_scale_points(c.dimension, c.rows, side, centre, axes, points, axes * rows);
    uint8_t refusal = lower(scaling, bbfmm_get_approximation_coefficients(
        c.dimension, c.order, c.rows, c.flag, side, polynomials, square(c.order), points, axes * rows, values, each, gradients,
        c.flag ? axes * each : 0, factors, of_axes, slopes, c.flag ? of_axes : 0));
    printf("coefficients %zu %zu %zu:", c.dimension, c.order, c.rows);
    put_answer(refusal, points, axes * rows);
    printf(" |");
    put_answer(refusal, values, each);
    if (c.flag) {
        printf(" |");
        put_answer(refusal, gradients, axes * each);
    }
    printf("\n");
}
