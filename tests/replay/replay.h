/* Replays cases through the static library: reads them from standard input, and prints a line for what the call of each answers. */
#ifndef REPLAY_H
#define REPLAY_H

#include "bbfmm.h"

int printf(const char *format, ...);

/* A case: a header of eight bytes, and then the floats that it is about. */
typedef struct {
    uint8_t kind;
    size_t order;
    size_t dimension;
    bool flag;
    size_t rows; /* or its child, or its reference, where it has no rows */
} Case;

/* Fill memory from the input. Where the input has too little, the program ends with 1. */
void read_bytes(void *place, size_t bytes);
void read_floats(double *list, size_t count);

/* A count that a buffer is cut to: none where it is above `most`, and then the call refuses it. */
size_t up_to(size_t most, size_t count);

/* How many nodes a block has, or 0 where its shape is out of range; and entries of a matrix of an order's nodes. */
size_t block(size_t dimension, size_t order);
size_t square(size_t order);

/* A space and a float by its bits, any NaN as `nan`; a list of them, of more than 32 a checksum; and a list or the refusal. */
void put_float(double x);
void put_floats(const double *list, size_t count);
void put_answer(uint8_t refusal, const double *list, size_t count);

/* The cases of a layer. */
void replay_turn(void);
void replay_chebyshev(Case c);
void replay_transfer(Case c);
void replay_points(Case c);
void replay_coefficients(Case c);
void replay_ratios(Case c);
void replay_reference(Case c);
void replay_curvature(Case c);
void replay_choices(Case c);
void replay_aca(Case c);

#endif
