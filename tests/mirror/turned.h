/* A block and the block that it is turned onto, as the calls give them: nodes of a set, points, and the table of a vector's case. */
#ifndef TURNED_H
#define TURNED_H

#include "bbfmm.h"

enum { MOST_NODES = 4096 };

typedef struct {
    size_t dimension, order, set;
    double side;
    int32_t vector[3];
} Given;

typedef struct {
    Given given;
    size_t count;   /* p to the power of D */
    size_t axes[3]; /* of the vector, by falling size */
    double nodes[16], sources[3 * MOST_NODES], targets[3 * MOST_NODES];
    uint16_t table[MOST_NODES];
} Turned;

/* Makes the calls; answers whether all were done. */
bool make_turned(Turned *turned, const Given *given);

/* The difference between source and target coordinate on an axis of the reference, between two of its nodes; and on the matching axis
   of the vector, between the nodes that the table names, with the vector's own entry. */
double before(const Turned *turned, size_t source, size_t target, size_t axis);
double after(const Turned *turned, size_t source, size_t target, size_t axis);

/* Whether two floats have the same bits but for the sign. */
bool is_same_size(double left, double right);

/* A node's index on an axis. */
size_t index_on(const Turned *turned, size_t axis, size_t node);

#endif
