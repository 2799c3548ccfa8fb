/* Kind 12: a side, and reference coordinates in its cell or not: the coefficients there, by the second call alone; where the flag is set,
   those of gradients too. Without it the side is not looked at, and the cases have a NaN there. The coordinates, which are only read,
   come first. */
#include "replay.h"

enum { ROOM = 65536 };

static double coordinates[12288];
static double values[ROOM];
static double gradients[3 * ROOM];
static double factors[ROOM];
static double slopes[ROOM];

void replay_reference(Case c)
{
    double side;
    double polynomials[256];
    size_t axes = up_to(3, c.dimension);
    size_t rows = up_to(4096, c.rows);
    size_t each = up_to(ROOM, block(c.dimension, c.order) * rows);
    size_t of_axes = up_to(ROOM, axes * up_to(16, c.order) * rows);
    read_floats(&side, 1);
    read_floats(polynomials, square(c.order));
    read_floats(coordinates, axes * rows);
    uint8_t refusal = bbfmm_get_approximation_coefficients(
        c.dimension, c.order, c.rows, c.flag, side, polynomials, square(c.order), coordinates, axes * rows, values, each, gradients,
        c.flag ? axes * each : 0, factors, of_axes, slopes, c.flag ? of_axes : 0);
    printf("coordinates %zu %zu %zu:", c.dimension, c.order, c.rows);
    put_answer(refusal, coordinates, axes * rows);
    printf(" |");
    put_answer(refusal, values, each);
    if (c.flag) {
        printf(" |");
        put_answer(refusal, gradients, axes * each);
    }
    printf("\n");
}
