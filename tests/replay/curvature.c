/* Kind 13: points: the polynomials there, their derivatives and second derivatives. Kind 14: a side, and reference coordinates in its cell
   or not: the curvature there, and all that the call leaves. The coordinates, which are only read, come first. */
#include "replay.h"

enum { ROOM = 65536, MOST = 4096, ORDERS = 16 };

static double points[3 * MOST];
static double tn[ORDERS * MOST];
static double dtn[ORDERS * MOST];
static double ddtn[ORDERS * MOST];
static double curvatures[6 * ROOM];
static double factors[ROOM];
static double slopes[ROOM];
static double bends[ROOM];
static double room[3 * ORDERS * MOST];

static void replay_second_derivatives(Case c)
{
    size_t rows = up_to(MOST, c.rows);
    size_t each = up_to(ORDERS, c.order) * rows;
    read_floats(points, rows);
    uint8_t refusal = bbfmm_evaluate_second_derivatives(c.order, c.rows, points, rows, tn, each, dtn, each, ddtn, each);
    printf("second derivatives %zu %zu:", c.order, c.rows);
    put_answer(refusal, tn, each);
    printf(" |");
    put_answer(refusal, dtn, each);
    printf(" |");
    put_answer(refusal, ddtn, each);
    printf("\n");
}

void replay_curvature(Case c)
{
    double side;
    double polynomials[ORDERS * ORDERS];
    if (c.kind == 13) {
        replay_second_derivatives(c);
        return;
    }
    size_t axes = up_to(3, c.dimension);
    size_t rows = up_to(MOST, c.rows);
    size_t all = axes * (axes + 1) / 2 * up_to(ROOM, block(c.dimension, c.order) * rows);
    size_t of_axes = up_to(ROOM, axes * up_to(ORDERS, c.order) * rows);
    size_t of_room = 3 * up_to(ORDERS, c.order) * rows;
    read_floats(&side, 1);
    read_floats(polynomials, square(c.order));
    read_floats(points, axes * rows);
    uint8_t refusal = bbfmm_get_curvature_coefficients(
        c.dimension, c.order, c.rows, side, polynomials, square(c.order), points, axes * rows, curvatures, all, factors, of_axes, slopes,
        of_axes, bends, of_axes, room, of_room);
    printf("curvature %zu %zu %zu:", c.dimension, c.order, c.rows);
    const double *const lists[] = {points, curvatures, factors, slopes, bends, room};
    const size_t counts[] = {axes * rows, all, of_axes, of_axes, of_axes, of_room};
    for (size_t i = 0; i < 6; i++) {
        printf(i == 0 ? "" : " |");
        put_answer(refusal, lists[i], counts[i]);
    }
    printf("\n");
}
