/* The example of docs/EVIDENCE.md through the call: an old goaf and fresh air, with the oxygen right and 0.01 too high. With a floor next
   to 0 the call gives the page's ratios, and prints the rows of its table. With a floor of 0.1 the goaf keeps its ratio, and fresh air
   has none. The fields are the same at every node, in every shape. Ends with 1 where the call says something else. */
#include "bbfmm.h"

int printf(const char *format, ...);

enum { AXES = 3, ORDERS = 16, NODES = 4096, PLACES = 2 };

/* What the page says of a place. */
typedef struct {
    const char *name;
    double nitrogen, oxygen, carbon_monoxide;
    double ratio, ratio_too_high;
    bool is_fresh;
} Place;

static const Place PAGE[PLACES] = {
    {"old goaf", 86.00, 9.79, 0.0060, 0.046, 0.046, false},
    {"fresh air", 79.04, 20.93, 0.0001, 0.641, 1.786, true},
};
static const double TOO_HIGH = 0.01;
static const double FLOOR = 0.1;
static const double NEXT_TO_ZERO = 1e-6;

/* What a ratio is lent as, where none may be written. */
static const double UNWRITTEN = -7;

static size_t faults;

static void expect(bool holds, const Place *place, size_t dimension, size_t order, const char *what)
{
    if (!holds) {
        printf("%s, dimension %zu, order %zu: %s\n", place->name, dimension, order, what);
        faults++;
    }
}

/* The answer at one point in a corner of the cell, and the ratio there. */
static uint8_t ask(const Place *place, double oxygen, double floor, size_t dimension, size_t order, double *ratio)
{
    static double gases[3][NODES], values[NODES], factors[AXES * ORDERS], nodes[ORDERS], polynomials[ORDERS * ORDERS], none[1];
    const double centre[AXES] = {0, 0, 0};
    double point[AXES] = {0.75, -0.5, 0.25};
    uint8_t answer = 9;
    size_t count = order * (dimension > 1 ? order : 1) * (dimension > 2 ? order : 1);
    for (size_t n = 0; n < count; n++) {
        gases[0][n] = place->carbon_monoxide;
        gases[1][n] = place->nitrogen;
        gases[2][n] = oxygen;
    }
    *ratio = UNWRITTEN;
    bbfmm_generate_chebyshev_nodes(order, nodes, order);
    bbfmm_evaluate_chebyshev_polynomials(order, order, nodes, order, false, polynomials, order * order, none, 0);
    uint8_t number = bbfmm_graham_ratios(
        dimension, order, 2, 1, floor, centre, dimension, polynomials, order * order, point, dimension, gases[0], count, gases[1], count,
        gases[2], count, values, count, factors, dimension * order, &answer, 1, ratio, 1);
    expect(number == BBFMM_DONE, place, dimension, order, "refused");
    return answer;
}

/* Whether a ratio is what the page says, which has three digits after the point. */
static bool is_about(double found, double said)
{
    return found > said - 0.0005 && found < said + 0.0005;
}

static void try_shape(const Place *place, size_t dimension, size_t order)
{
    const double oxygens[2] = {place->oxygen, place->oxygen + TOO_HIGH};
    const double said[2] = {place->ratio, place->ratio_too_high};
    for (size_t k = 0; k < 2; k++) {
        double ratio;
        uint8_t answer = ask(place, oxygens[k], NEXT_TO_ZERO, dimension, order, &ratio);
        expect(answer == BBFMM_AIR_RATIO && is_about(ratio, said[k]), place, dimension, order, "not the ratio of the page");
        answer = ask(place, oxygens[k], FLOOR, dimension, order, &ratio);
        if (place->is_fresh) {
            expect(answer == BBFMM_AIR_FRESH && ratio == UNWRITTEN, place, dimension, order, "a ratio in fresh air");
        } else {
            expect(answer == BBFMM_AIR_RATIO && is_about(ratio, said[k]), place, dimension, order, "the goaf lost its ratio");
        }
    }
}

/* A row of the page's table, by what the call gives where there is one node. */
static void print_row(const Place *place)
{
    double right, wrong;
    ask(place, place->oxygen, NEXT_TO_ZERO, 1, 1, &right);
    ask(place, place->oxygen + TOO_HIGH, NEXT_TO_ZERO, 1, 1, &wrong);
    double deficiency = 0.265 * place->nitrogen - place->oxygen;
    printf("| %s | %.2f | %.2f | %.4f | %.4f | %.3f | %.3f |\n", place->name, place->nitrogen, place->oxygen, place->carbon_monoxide,
        deficiency, right, wrong);
}

int main(void)
{
    for (size_t k = 0; k < PLACES; k++) {
        for (size_t dimension = 1; dimension <= AXES; dimension++) {
            for (size_t order = 1; order <= ORDERS; order++) {
                try_shape(&PAGE[k], dimension, order);
            }
        }
        print_row(&PAGE[k]);
    }
    return faults > 0;
}
