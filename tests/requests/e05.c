/* E5: ratio maps. */
#include "cases.h"

void *memset(void *place, int byte, size_t bytes);
void *memcpy(void *to, const void *from, size_t bytes);
int memcmp(const void *left, const void *right, size_t bytes);

/* Room for the largest map of a case, and entries past it. */
enum { ROOM = 256, PATTERN = 0xa5 };

typedef struct {
    double centre[ROOM], polynomials[ROOM], points[ROOM], gases[3][ROOM];
    double values[ROOM], factors[ROOM], ratios[ROOM];
    uint8_t answers[ROOM];
} Lent;
static Lent lent, before;

/* How long the buffers are that a case does not list; answers and ratios have an entry a point. */
typedef struct {
    size_t values, factors, points;
} Lengths;

/* A case that is refused for its shape or its count does not ask how long they are. */
static Lengths lengths_of(size_t dimension, size_t order, size_t rows)
{
    if (dimension < 1 || dimension > 3 || order > 16 || rows > ROOM) {
        return (Lengths){0, 0, 0};
    }
    size_t nodes = order * (dimension > 1 ? order : 1) * (dimension > 2 ? order : 1);
    return (Lengths){nodes * rows, dimension * order * rows, rows};
}

/* The case does not list what becomes of the points, the values and the factors: they must be what scaling and the coefficient call
   leave. */
static void hold_coefficients(Lengths lengths, size_t centre_count, size_t polynomial_count, size_t point_count)
{
    static double points[ROOM], values[ROOM], factors[ROOM], none[1];
    double length = real("length");
    memcpy(points, before.points, sizeof points);
    bool is_scaled =
        bbfmm_scale_points(number("d"), number("rows"), length, lent.centre, centre_count, points, point_count) == BBFMM_DONE;
    bool is_done = bbfmm_get_approximation_coefficients(
        number("d"), number("p"), number("rows"), false, length, lent.polynomials, polynomial_count, points, point_count, values,
        lengths.values, none, 0, factors, lengths.factors, none, 0) == BBFMM_DONE;
    hold(is_scaled && is_done && are_alike(lent.points, points, point_count), "points");
    hold(are_alike(lent.values, values, lengths.values), "values");
    hold(are_alike(lent.factors, factors, lengths.factors), "factors");
}

/* The case lists the ratios of the points that have one; where a point has none, and past the points, they must be as lent. */
static void hold_map(size_t rows)
{
    static size_t answers[ROOM];
    static double ratios[ROOM];
    size_t count = 0;
    for (size_t i = 0; i < ROOM; i++) {
        if (i < rows && lent.answers[i] == BBFMM_AIR_RATIO) {
            ratios[count++] = lent.ratios[i];
        } else {
            hold(memcmp(&lent.ratios[i], &before.ratios[i], sizeof lent.ratios[i]) == 0, "a ratio that the point has not");
        }
        answers[i] = lent.answers[i];
    }
    hold_numbers("answers", answers, rows);
    hold_reals("ratios", ratios, count);
    hold(memcmp(lent.answers + rows, before.answers + rows, ROOM - rows) == 0, "what is past the answers");
}

/* Past the first entries, so many, nothing has changed. */
#define HOLD_PAST(name, count)                                                                                                        \
    hold(memcmp(lent.name + (count), before.name + (count), (ROOM - (count)) * sizeof(double)) == 0, "what is past " #name)

void answer_e05_ratio(void)
{
    size_t dimension = number("d");
    size_t order = number("p");
    size_t rows = number("rows");
    Lengths lengths = lengths_of(dimension, order, rows);
    memset(&lent, PATTERN, sizeof lent);
    size_t centre_count = reals("centre", lent.centre, ROOM);
    size_t polynomial_count = reals("polynomials", lent.polynomials, ROOM);
    size_t point_count = reals("points", lent.points, ROOM);
    size_t carbon_monoxide_count = reals("co", lent.gases[0], ROOM);
    size_t nitrogen_count = reals("n2", lent.gases[1], ROOM);
    size_t oxygen_count = reals("o2", lent.gases[2], ROOM);
    memcpy(&before, &lent, sizeof before);
    uint8_t found = bbfmm_graham_ratios(
        dimension, order, real("length"), rows, real("floor"), lent.centre, centre_count, lent.polynomials, polynomial_count,
        lent.points, point_count, lent.gases[0], carbon_monoxide_count, lent.gases[1], nitrogen_count, lent.gases[2], oxygen_count,
        lent.values, lengths.values, lent.factors, lengths.factors, lent.answers, lengths.points, lent.ratios, lengths.points);
    hold_number("refusal", found);
    if (found != BBFMM_DONE || rows != lengths.points) {
        hold(memcmp(&lent, &before, sizeof lent) == 0, "what was lent");
        return;
    }
    hold_coefficients(lengths, centre_count, polynomial_count, point_count);
    hold_map(rows);
    HOLD_PAST(centre, 0);
    HOLD_PAST(polynomials, 0);
    hold(memcmp(lent.gases, before.gases, sizeof lent.gases) == 0, "an expansion");
    HOLD_PAST(points, point_count);
    HOLD_PAST(values, lengths.values);
    HOLD_PAST(factors, lengths.factors);
}
