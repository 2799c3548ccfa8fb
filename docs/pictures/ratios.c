/* Makes up a goaf with a warm spot and a corner of fresh air, and prints Graham's ratio at points of it, at two floors. A line a point:
   the floor, the place to the right and down, the answer, and the ratio or a minus. The map has 4 by 4 cells of 100 m; one of them has
   a reading of oxygen that failed. */
#include "bbfmm.h"

int printf(const char *format, ...);

enum { ORDER = 8, NODES = ORDER * ORDER, CELLS = 4, ALONG = 12, POINTS = ALONG * ALONG };
enum { FAILED_RIGHT = 0, FAILED_DOWN = 3, FAILED_NODE = 27 };

static const double LENGTH = 100;
static const double FLOORS[2] = {1e-6, 0.1};

/* How far the oxygen field is off at a node, in per cent: a made-up fault, up to this to both sides. */
static const double FAULT = 0.02;

typedef struct {
    double carbon_monoxide[NODES], nitrogen[NODES], oxygen[NODES];
} Gases;

/* A number from -1 to 1 for each node of the map, in no order. */
static double any(size_t number)
{
    uint64_t bits = (number + 1) * 0x9e3779b97f4a7c15;
    bits = (bits ^ bits >> 30) * 0xbf58476d1ce4e5b9;
    return (double)(bits >> 40) / 8388608 - 1;
}

/* Air at x, y, from 0 to 1 across the map: between the old goaf's and fresh air, as docs/EVIDENCE.md has them, and a spot where
   something burns, which makes carbon monoxide and takes oxygen. */
static void air(double x, double y, size_t number, Gases *gases, size_t node)
{
    double old = 1 - 0.5 * x - 0.62 * (1 - y);
    double share = old * old * old * old;
    double right = (x - 0.4) / 0.17;
    double down = (y - 0.64) / 0.13;
    double far = 1 + right * right + down * down;
    double warm = share / (far * far);
    gases->carbon_monoxide[node] = 0.0001 + 0.0059 * share + 0.2 * warm;
    gases->nitrogen[node] = 79.04 + 6.96 * share;
    gases->oxygen[node] = 20.93 - 11.14 * share - 6 * warm + FAULT * any(number);
}

/* The gases at the nodes of a cell, of which the second axis varies fastest. */
static void fill(size_t cell_right, size_t cell_down, const double *nodes, Gases *gases)
{
    static const double zero = 0;
    for (size_t n = 0; n < NODES; n++) {
        double x = ((double)cell_right + 0.5 + 0.5 * nodes[n / ORDER]) / CELLS;
        double y = ((double)cell_down + 0.5 + 0.5 * nodes[n % ORDER]) / CELLS;
        air(x, y, (cell_down * CELLS + cell_right) * NODES + n, gases, n);
    }
    if (cell_right == FAILED_RIGHT && cell_down == FAILED_DOWN) {
        gases->oxygen[FAILED_NODE] = zero / zero;
    }
}

/* Asks for the points of a cell, and prints a line for each. Answers whether the call was done. */
static bool print_cell(size_t cell_right, size_t cell_down, double floor, const double *polynomials, const Gases *gases)
{
    static double points[2 * POINTS], values[POINTS * NODES], factors[POINTS * 2 * ORDER], ratios[POINTS];
    static uint8_t answers[POINTS];
    double centre[2] = {LENGTH * ((double)cell_right + 0.5), LENGTH * ((double)cell_down + 0.5)};
    for (size_t i = 0; i < POINTS; i++) {
        points[i] = LENGTH * ((double)cell_right + ((double)(i % ALONG) + 0.5) / ALONG);
        points[POINTS + i] = LENGTH * ((double)cell_down + ((double)(i / ALONG) + 0.5) / ALONG);
    }
    uint8_t refusal = bbfmm_graham_ratios(
        2, ORDER, LENGTH, POINTS, floor, centre, 2, polynomials, ORDER * ORDER, points, 2 * POINTS, gases->carbon_monoxide, NODES,
        gases->nitrogen, NODES, gases->oxygen, NODES, values, POINTS * NODES, factors, POINTS * 2 * ORDER, answers, POINTS, ratios, POINTS);
    for (size_t i = 0; i < POINTS && refusal == BBFMM_DONE; i++) {
        printf("%g %zu %zu %u ", floor, cell_right * ALONG + i % ALONG, cell_down * ALONG + i / ALONG, answers[i]);
        if (answers[i] == 0) {
            printf("%.6g\n", ratios[i]);
        } else {
            printf("-\n");
        }
    }
    return refusal == BBFMM_DONE;
}

int main(void)
{
    static double nodes[ORDER], polynomials[ORDER * ORDER], none[1];
    static Gases gases;
    if (bbfmm_generate_chebyshev_nodes(ORDER, nodes, ORDER) != BBFMM_DONE ||
        bbfmm_evaluate_chebyshev_polynomials(ORDER, ORDER, nodes, ORDER, false, polynomials, ORDER * ORDER, none, 0) != BBFMM_DONE) {
        return 1;
    }
    for (size_t k = 0; k < 2; k++) {
        for (size_t cell = 0; cell < CELLS * CELLS; cell++) {
            fill(cell % CELLS, cell / CELLS, nodes, &gases);
            if (!print_cell(cell % CELLS, cell / CELLS, FLOORS[k], polynomials, &gases)) {
                return 1;
            }
        }
    }
    return 0;
}
