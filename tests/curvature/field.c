/* Two fields whose curvature anybody can work out by hand, through the calls: values at the nodes of a cell, and what the calls make of
   them at some places. Prints the tables of docs/EVIDENCE.md, from order 3; every order from 3 to 16 and both sets of nodes must come as
   near to the exact curvature. Ends with 1 where one does not. */
#include "bbfmm.h"

int printf(const char *format, ...);

enum { AXES = 3, ORDERS = 16, NODES = 4096, PAIRS = 6, PLACES = 5, SHOWN = 3 };

/* How far a curvature may be off. */
static const double MOST = 1e-9;

typedef double Field(const double *at);
typedef double Curvature(const double *at, size_t pair);

typedef struct {
    size_t dimension, places;
    double length, centre[AXES];
    double at[PLACES][AXES];
    Field *field;
    Curvature *curvature;
} Example;

/* x^2*y - 3*x*y + 2, whose curvature is 2*y along x and x, 2*x - 3 along x and y, and 0 along y and y. */
static double first_field(const double *at)
{
    double x = at[0], y = at[1];
    return x * x * y - 3 * x * y + 2;
}

static double first_curvature(const double *at, size_t pair)
{
    return pair == 0 ? 2 * at[1] : pair == 1 ? 2 * at[0] - 3 : 0;
}

/* x^2 + 3*y^2 + 5*z^2 + 7*x*y + 11*x*z + 13*y*z: another number for each pair of axes, the same everywhere. */
static double second_field(const double *at)
{
    double x = at[0], y = at[1], z = at[2];
    return x * x + 3 * y * y + 5 * z * z + 7 * x * y + 11 * x * z + 13 * y * z;
}

static double second_curvature(const double *at, size_t pair)
{
    (void)at;
    return (double[PAIRS]){2, 7, 11, 6, 13, 10}[pair];
}

static const Example FIRST = {2, PLACES, 4, {3, -1, 0},
    {{3, -1, 0}, {1, -3, 0}, {5, 1, 0}, {2.5, 0.25, 0}, {4.7, -2.9, 0}}, first_field, first_curvature};
static const Example SECOND = {3, 1, 2, {1, 2, -3}, {{1.3, 2.6, -3.9}}, second_field, second_curvature};

static size_t faults;

static double size_of(double x)
{
    return x < 0 ? -x : x;
}

static size_t nodes_of(size_t dimension, size_t order)
{
    return order * (dimension > 1 ? order : 1) * (dimension > 2 ? order : 1);
}

/* The field at the nodes of the cell, and T there. */
static void fill(const Example *e, size_t order, size_t set, double *expansion, double *polynomials)
{
    static double nodes[ORDERS], points[NODES * AXES], none[1];
    size_t count = nodes_of(e->dimension, order);
    faults += bbfmm_generate_node_set(order, set, nodes, order) != BBFMM_DONE;
    faults += bbfmm_evaluate_chebyshev_polynomials(order, order, nodes, order, false, polynomials, order * order, none, 0) != BBFMM_DONE;
    faults += bbfmm_generate_chebyshev_target_points(e->dimension, order, e->length, nodes, order, points, count * e->dimension) !=
              BBFMM_DONE;
    for (size_t n = 0; n < count; n++) {
        double at[AXES] = {0, 0, 0};
        for (size_t axis = 0; axis < e->dimension; axis++) {
            at[axis] = points[n + axis * count] + e->centre[axis];
        }
        expansion[n] = e->field(at);
    }
}

/* The curvature of the field at every place of an example, by the calls. */
static void find(const Example *e, size_t order, size_t set, double found[PLACES][PAIRS])
{
    static double expansion[NODES], polynomials[ORDERS * ORDERS], curvatures[PLACES * PAIRS * NODES], room[3 * ORDERS * PLACES];
    static double factors[PLACES * AXES * ORDERS], slopes[PLACES * AXES * ORDERS], bends[PLACES * AXES * ORDERS];
    double points[PLACES * AXES];
    size_t d = e->dimension, rows = e->places, count = nodes_of(d, order), pairs = d * (d + 1) / 2, axes = d * order * rows;
    fill(e, order, set, expansion, polynomials);
    for (size_t i = 0; i < rows * d; i++) {
        points[i] = e->at[i % rows][i / rows];
    }
    faults += bbfmm_scale_points(d, rows, e->length, e->centre, d, points, rows * d) != BBFMM_DONE;
    faults += bbfmm_get_curvature_coefficients(d, order, rows, e->length, polynomials, order * order, points, rows * d, curvatures,
                  pairs * count * rows, factors, axes, slopes, axes, bends, axes, room, 3 * order * rows) != BBFMM_DONE;
    for (size_t k = 0; k < rows * pairs; k++) {
        double sum = 0;
        for (size_t n = 0; n < count; n++) {
            sum += curvatures[k % rows + (k / rows * count + n) * rows] * expansion[n];
        }
        found[k % rows][k / rows] = sum;
    }
}

static void hold(const Example *e)
{
    double found[PLACES][PAIRS];
    for (size_t order = SHOWN; order <= ORDERS; order++) {
        for (size_t set = 0; set < 2; set++) {
            find(e, order, set, found);
            for (size_t k = 0; k < e->places * e->dimension * (e->dimension + 1) / 2; k++) {
                size_t place = k % e->places, pair = k / e->places;
                if (!(size_of(found[place][pair] - e->curvature(e->at[place], pair)) < MOST)) {
                    printf("order %zu, set %zu, place %zu, pair %zu: %.17g\n", order, set, place, pair, found[place][pair]);
                    faults++;
                }
            }
        }
    }
}

/* What the call gives and what is exact, side by side. A zero has no sign here. */
static double print_pair(double exact, double found)
{
    printf(" %g | %.12f |", exact, size_of(found) < 5e-13 ? 0 : found);
    return size_of(found - exact);
}

static void print_first(void)
{
    double found[PLACES][PAIRS];
    find(&FIRST, SHOWN, 0, found);
    printf("| x | y | 2y | from the call | 2x - 3 | from the call | 0 | from the call | largest gap |\n");
    printf("|---|---|---|---|---|---|---|---|---|\n");
    for (size_t place = 0; place < PLACES; place++) {
        const double *at = FIRST.at[place];
        double largest = 0;
        printf("| %g | %g |", at[0], at[1]);
        for (size_t pair = 0; pair < 3; pair++) {
            double gap = print_pair(first_curvature(at, pair), found[place][pair]);
            largest = gap > largest ? gap : largest;
        }
        printf(" %.1e |\n", largest);
    }
}

static void print_second(void)
{
    static const char *const NAMES[PAIRS] = {"x, x", "x, y", "x, z", "y, y", "y, z", "z, z"};
    double found[PLACES][PAIRS];
    find(&SECOND, SHOWN, 0, found);
    printf("\n| along | exact | from the call | gap |\n|---|---|---|---|\n");
    for (size_t pair = 0; pair < PAIRS; pair++) {
        printf("| %s |", NAMES[pair]);
        printf(" %.1e |\n", print_pair(second_curvature(SECOND.at[0], pair), found[0][pair]));
    }
}

int main(void)
{
    hold(&FIRST);
    hold(&SECOND);
    print_first();
    print_second();
    return faults > 0;
}
