/* Ratio maps by the rule of documents 01 to 03, written anew: what a call must answer, and leave in what it is lent. */
#ifndef RULE_H
#define RULE_H

#include "bbfmm.h"

/* What is asked: a cell, its nodes' polynomials, and the three gases there. */
typedef struct {
    size_t dimension, order;
    double length;
    size_t rows;
    double floor;
    const double *centre, *polynomials;
    const double *carbon_monoxide, *nitrogen, *oxygen;
} Question;

/* What the coefficients are: the points, physical at first, and what is made of them. */
typedef struct {
    double *points, *values, *factors;
} Coefficients;

/* What is found at a point. Where the answer is not BBFMM_AIR_RATIO, the ratio is none. */
typedef struct {
    double deficiency, ratio;
    uint8_t answer;
} Found;

bool is_finite(double x);

/* The order to the power of the dimension. */
size_t nodes_of(const Question *q);

/* The lowest number of all faults, or 0. The points are physical. */
uint8_t find_fault(const Question *q, const double *points, bool are_lengths_right);

/* For a question without a fault: scales the points, and fills factors and values. */
void fill_coefficients(const Question *q, Coefficients *c);

/* What comes of them at a point. */
Found find_ratio(const Question *q, const Coefficients *c, size_t point);

#endif
