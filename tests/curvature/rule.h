/* Second derivatives and curvature by the rule of documents 01 to 03, written anew: what the calls must answer, and leave in what they
   are lent. */
#ifndef RULE_H
#define RULE_H

#include "bbfmm.h"

/* The limits. */
enum { AXES = 3, ORDERS = 16, POINTS = 4096, PAIRS = 6 };

/* T, T' and T'' of every index below the order, at one place. */
typedef struct {
    double t[ORDERS], first[ORDERS], second[ORDERS];
} Polynomials;

Polynomials polynomials_at(double x, size_t order);

/* What is asked of the curvature call: points in a cell by their reference coordinates, and T at the nodes. */
typedef struct {
    size_t dimension, order, rows;
    double length;
    const double *polynomials, *coordinates;
} Question;

/* What it leaves. */
typedef struct {
    double *curvatures, *factors, *slopes, *bends, *room;
} Left;

/* The order to the power of the dimension; and how many pairs g <= h there are. */
size_t nodes_of(size_t dimension, size_t order);
size_t pairs_of(size_t dimension);

/* The lowest number of all faults, or 0: of the call for second derivatives, and of the call for curvature. */
uint8_t find_fault_of_second(size_t order, size_t rows, bool are_lengths_right);
uint8_t find_fault(const Question *q, bool are_lengths_right);

/* For a question without a fault. */
void fill_left(const Question *q, const Left *left);

#endif
