/* What the programs here share: numbers that look drawn and are the same every time, and floats as bits. */
#ifndef DRAW_H
#define DRAW_H

#include "bbfmm.h"

/* Any 64 bits; and a number below n. */
uint64_t draw(void);
uint64_t draw_below(uint64_t n);

uint64_t bits_of(double x);
double float_of(uint64_t bits);

/* Whether two floats have the same bits, or are both NaN. */
bool is_same(double left, double right);

/* The processor's own square root. */
double processor_root(double x);

#endif
