/* Makes a call on what was drawn, and holds all that it leaves to the rule. */
#ifndef HOLD_H
#define HOLD_H

#include "rule.h"

/* What a call reads: the polynomials at the nodes, for curvature, and the coordinates, or the points of the call for second
   derivatives. */
typedef struct {
    double polynomials[ORDERS * ORDERS], coordinates[AXES * POINTS];
} Drawn;
extern Drawn drawn;

/* The buffers of the two calls, in their order. */
enum { PLACES, TN, DTN, DDTN, BUFFERS_OF_SECOND };
enum { NODE_POLYNOMIALS, COORDINATES, CURVATURES, FACTORS, SLOPES, BENDS, ROOM, BUFFERS };

/* What a call is told. The lengths are those of the shape, but for one that may be changed; the told dimension, order and rows may be
   others than the shape's. */
typedef struct {
    size_t dimension, order, rows;
    size_t told_dimension, told_order, told_rows;
    double length;
    size_t wrong_buffer; /* or BUFFERS */
    bool is_longer;
} Trial;

/* What was met: calls; how often each number came; entries of lent memory that were compared after calls that were taken, and how many
   of them are NaN or infinite; coordinates outside the cell; shapes and orders; and faults. */
typedef struct {
    size_t calls, second_calls;
    size_t numbers[BBFMM_NOT_FINITE + 1], second_numbers[BBFMM_NOT_FINITE + 1];
    size_t entries, not_finite, outside;
    bool shapes[AXES + 1][ORDERS + 1], orders[ORDERS + 1];
    size_t faults;
} Tally;
extern Tally tally;

void try_second(const Trial *trial);
void try_curvature(const Trial *trial);

#endif
