/* E13: second derivatives, and curvature. What a case lists of T, T', values and gradients is held too, through the calls for these. */
#include "cases.h"

void *memset(void *place, int byte, size_t bytes);
void *memcpy(void *to, const void *from, size_t bytes);
int memcmp(const void *left, const void *right, size_t bytes);

/* Room for the largest case, and entries past it. */
enum { ROOM = 512, PATTERN = 0xa5 };

typedef struct {
    double points[ROOM], polynomials[ROOM];
    double t[ROOM], dt[ROOM], ddt[ROOM];
    double values[ROOM], gradients[ROOM], curvatures[ROOM], factors[ROOM], slopes[ROOM], bends[ROOM], room[ROOM];
} Lent;
static Lent lent, before;

/* From this entry on a buffer is as it was lent. */
#define HOLD_PAST(name, count)                                                                                                        \
    hold((count) <= ROOM && memcmp(lent.name + (count), before.name + (count), (ROOM - (count)) * sizeof(double)) == 0, "past " #name)

void answer_e13_polynomials(void)
{
    size_t want = number("want"), order = number("p"), rows = number("rows");
    size_t n[3] = {number_at("lengths", 0), number_at("lengths", 1), number_at("lengths", 2)};
    memset(&lent, PATTERN, sizeof lent);
    size_t point_count = reals("points", lent.points, ROOM);
    memcpy(&before, &lent, sizeof before);
    uint8_t found = want == 2
        ? bbfmm_evaluate_second_derivatives(order, rows, lent.points, point_count, lent.t, n[0], lent.dt, n[1], lent.ddt, n[2])
        : bbfmm_evaluate_chebyshev_polynomials(order, rows, lent.points, point_count, want == 1, lent.t, n[0], lent.dt, n[1]);
    hold_number("refusal", found);
    if (found != BBFMM_DONE) {
        hold(memcmp(&lent, &before, sizeof lent) == 0, "what was lent");
        return;
    }
    hold_reals("t", lent.t, n[0]);
    if (want > 0) {
        hold_reals("dt", lent.dt, n[1]);
    }
    if (want > 1) {
        hold_reals("ddt", lent.ddt, n[2]);
    }
    HOLD_PAST(points, 0);
    HOLD_PAST(t, n[0]);
    HOLD_PAST(dt, n[1]);
    HOLD_PAST(ddt, n[2]);
}

/* Values and gradients, by their own call; what it leaves of factors and slopes is what the other call leaves. */
static void hold_gradients(size_t axes, size_t point_count, size_t polynomial_count)
{
    static double factors[ROOM], slopes[ROOM];
    size_t value_count = number_at("lengths", 0), gradient_count = number_at("lengths", 1);
    uint8_t found = bbfmm_get_approximation_coefficients(number("d"), number("p"), number("rows"), true, real("length"),
        lent.polynomials, polynomial_count, lent.points, point_count, lent.values, value_count, lent.gradients, gradient_count, factors,
        axes, slopes, axes);
    hold_number("refusal", found);
    hold_reals("values", lent.values, value_count);
    hold_reals("grads", lent.gradients, gradient_count);
    hold(are_alike(factors, lent.factors, axes) && are_alike(slopes, lent.slopes, axes), "factors and slopes");
}

/* The case does not list the working buffers. On a line the bends are the curvature; and the room is what the other call leaves. */
static void hold_room(size_t dimension, size_t order, size_t rows)
{
    size_t each = order * rows;
    hold(dimension > 1 || are_alike(lent.bends, lent.curvatures, each), "bends");
    uint8_t found = bbfmm_evaluate_second_derivatives(
        order, rows, lent.points + (dimension - 1) * rows, rows, lent.t, each, lent.dt, each, lent.ddt, each);
    hold(found == BBFMM_DONE && are_alike(lent.room, lent.t, each) && are_alike(lent.room + each, lent.dt, each) &&
             are_alike(lent.room + 2 * each, lent.ddt, each), "room");
}

void answer_e13_curvature(void)
{
    size_t dimension = number("d"), order = number("p"), rows = number("rows"), count = number_at("lengths", 2);
    /* A case that is refused for its shape or its count does not ask how long the working buffers are. */
    size_t axes = dimension <= 3 && order <= 16 && rows <= 8 ? dimension * order * rows : 0;
    size_t room = order <= 16 && rows <= 8 ? 3 * order * rows : 0;
    memset(&lent, PATTERN, sizeof lent);
    size_t point_count = reals("points", lent.points, ROOM);
    size_t polynomial_count = reals("polynomials", lent.polynomials, ROOM);
    memcpy(&before, &lent, sizeof before);
    uint8_t found = bbfmm_get_curvature_coefficients(dimension, order, rows, real("length"), lent.polynomials, polynomial_count,
        lent.points, point_count, lent.curvatures, count, lent.factors, axes, lent.slopes, axes, lent.bends, axes, lent.room, room);
    hold_number("refusal", found);
    if (found != BBFMM_DONE) {
        hold(memcmp(&lent, &before, sizeof lent) == 0, "what was lent");
        return;
    }
    hold_reals("curvature", lent.curvatures, count);
    HOLD_PAST(polynomials, 0);
    HOLD_PAST(points, 0);
    HOLD_PAST(curvatures, count);
    HOLD_PAST(factors, axes);
    HOLD_PAST(slopes, axes);
    HOLD_PAST(bends, axes);
    HOLD_PAST(room, room);
    hold_gradients(axes, point_count, polynomial_count);
    hold_room(dimension, order, rows);
}
