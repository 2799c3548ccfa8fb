/* E7: the call that scales points, and the one that takes reference coordinates. */
#include "cases.h"

void *memset(void *place, int byte, size_t bytes);
void *memcpy(void *to, const void *from, size_t bytes);
int memcmp(const void *left, const void *right, size_t bytes);

/* Room for the largest case, and entries past it. */
enum { ROOM = 256, PATTERN = 0xa5 };

typedef struct {
    double centre[ROOM], points[ROOM], polynomials[ROOM];
    double values[ROOM], gradients[ROOM], factors[ROOM], slopes[ROOM];
} Lent;
static Lent lent, before;

/* From this entry on a buffer is as it was lent. */
#define HOLD_PAST(name, count)                                                                                                        \
    hold((count) <= ROOM && memcmp(lent.name + (count), before.name + (count), (ROOM - (count)) * sizeof(double)) == 0, "past " #name)

void answer_e07_scale(void)
{
    memset(&lent, PATTERN, sizeof lent);
    size_t centre_count = reals("centre", lent.centre, ROOM);
    size_t point_count = reals("points", lent.points, ROOM);
    memcpy(&before, &lent, sizeof before);
    uint8_t found = bbfmm_scale_points(
        number("d"), number("rows"), real("length"), lent.centre, centre_count, lent.points, point_count);
    hold_number("refusal", found);
    HOLD_PAST(centre, 0);
    HOLD_PAST(points, found == BBFMM_DONE ? point_count : 0);
    if (found == BBFMM_DONE) {
        hold_reals("scaled", lent.points, point_count);
    }
}

/* The case does not list the working buffers. On a line each is what the values and gradients are; and past its length, as it was. */
static void hold_shares(size_t shares, size_t slopes)
{
    HOLD_PAST(factors, shares);
    HOLD_PAST(slopes, slopes);
    if (number("d") == 1) {
        hold(are_alike(lent.factors, lent.values, shares), "factors");
        hold(are_alike(lent.slopes, lent.gradients, slopes), "slopes");
    }
}

void answer_e07_reference(void)
{
    size_t dimension = number("d");
    size_t order = number("p");
    size_t rows = number("rows");
    bool with_gradients = number("want") == 1;
    size_t value_count = number_at("lengths", 0);
    size_t gradient_count = number_at("lengths", 1);
    /* A case that is refused for its shape or its count does not ask how long the working buffers are. */
    size_t shares = dimension <= 3 && order <= 16 && rows <= 64 ? dimension * order * rows : 0;
    size_t slopes = with_gradients ? shares : 0;
    memset(&lent, PATTERN, sizeof lent);
    size_t point_count = reals("points", lent.points, ROOM);
    size_t polynomial_count = reals("polynomials", lent.polynomials, ROOM);
    memcpy(&before, &lent, sizeof before);
    uint8_t found = bbfmm_get_approximation_coefficients(
        dimension, order, rows, with_gradients, real("length"), lent.polynomials, polynomial_count, lent.points, point_count,
        lent.values, value_count, lent.gradients, gradient_count, lent.factors, shares, lent.slopes, slopes);
    hold_number("refusal", found);
    if (found != BBFMM_DONE) {
        hold(memcmp(&lent, &before, sizeof lent) == 0, "what was lent");
        return;
    }
    hold_reals("values", lent.values, value_count);
    hold_reals("grads", lent.gradients, gradient_count);
    hold_shares(shares, slopes);
    HOLD_PAST(polynomials, 0);
    HOLD_PAST(points, 0);
    HOLD_PAST(values, value_count);
    HOLD_PAST(gradients, gradient_count);
}
