/* Makes the call on a map that was drawn, and holds all that it leaves to the rule. */
#ifndef HOLD_H
#define HOLD_H

#include "bbfmm.h"

/* The limits, and how many entries are looked at past each buffer. */
enum { AXES = 3, ORDERS = 16, NODES = 4096, POINTS = 4096, PAST = 8 };

/* The buffers in the order of the call. */
enum { CENTRE, POLYNOMIALS, PLACES, CARBON_MONOXIDE, NITROGEN, OXYGEN, VALUES, FACTORS, ANSWERS, RATIOS, BUFFERS };

/* What a call reads. */
typedef struct {
    double centre[AXES], polynomials[ORDERS * ORDERS], points[AXES * POINTS], gases[3][NODES];
} Drawn;
extern Drawn drawn;

/* How the floor is chosen: it is given; or it is the deficiency at a point, or the float on either side of that. */
typedef enum { GIVEN, EQUAL, BELOW, ABOVE, FLOOR_KINDS } FloorKind;

/* What a call is told. The lengths are those of the cell, but for one that may be changed; the told dimension, order and rows may be
   others than the cell's. */
typedef struct {
    size_t dimension, order, rows;
    size_t told_dimension, told_order, told_rows;
    double length, floor;
    FloorKind floor_kind;
    size_t floor_point;
    size_t wrong_buffer; /* or BUFFERS */
    bool is_longer;
} Map;

/* What was met: calls; how often each number came; points; how often each answer came; of the unusable ones those whose deficiency was
   finite; of the fresh ones those below 0; how often a deficiency was the float below the floor, the floor, and the float above it;
   shapes; and faults. */
typedef struct {
    size_t calls;
    size_t numbers[BBFMM_NO_FLOOR + 1];
    size_t points;
    size_t answers[BBFMM_AIR_FRESH + 1];
    size_t overflows, negative;
    size_t about_floor[3];
    bool shapes[AXES + 1][ORDERS + 1];
    size_t faults;
} Tally;
extern Tally tally;

void try_map(const Map *map);

#endif
