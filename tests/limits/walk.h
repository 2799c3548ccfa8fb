/* Walks the limits of a call from both sides: makes it with every combination of a few values and lengths about its limits, and
   looks at its number and at all lent memory. */
#ifndef WALK_H
#define WALK_H

#include "bbfmm.h"

/* Memory that is lent: so many entries of one size, each equal to a pattern, of which the first `length` are lent. */
typedef struct {
    void *place;
    size_t size;
    size_t room;
    const void *pattern;
    size_t length;
} Buffer;
#define BUFFER(name, type, count, value)                                                                                         \
    static type name##_place[count];                                                                                             \
    static const type name##_pattern = (value);                                                                                  \
    static Buffer name = {name##_place, sizeof(type), (count), &name##_pattern, 0}
/* A buffer as a call takes it. */
#define LENT(name) name##_place, name.length

/* What one call gave: the number that was expected, the one that came, and whether something else was changed than buffers show. */
typedef struct {
    uint8_t expected;
    uint8_t number;
    bool is_changed;
} Outcome;

/* Makes the call once for each k below `calls`, and prints a line. */
typedef Outcome Call(size_t k);
void walk(const char *name, size_t calls, Call *call, Buffer *const *lent, size_t count);
#define WALK(name, calls, call, lent) walk((name), (calls), (call), (lent), sizeof(lent) / sizeof(lent)[0])

/* Takes the lowest digit, to the base n, off a combination's number. */
size_t take(size_t *k, size_t n);

/* Lends a buffer exactly as long as it should be, one entry short, one long, or empty, and never above its room. Answers whether
   that is the exact length. */
bool lend(Buffer *buffer, size_t exact, size_t digit);

/* Whether the first entries of a buffer, so many, hold the pattern. */
bool is_kept(const Buffer *buffer, size_t count);

/* An entry of a buffer, of which the pattern is 7, that is another float for one call; a place of 0 is none. It is put there before the
   call and taken away behind it, with the answer whether it had to stay and did not. */
typedef struct {
    double *place;
    double x;
} Odd;
void put_odd(const Odd *odd);
bool take_odd(const Odd *odd, bool must_stay);

/* A product, or a number above any room. The largest number times itself is 1 where a product wraps, and then 1 is the length to try. */
size_t product(size_t a, size_t b);
/* An order to the power of a dimension. */
size_t power(size_t dimension, size_t order);
size_t lesser(size_t a, size_t b);
/* The float beside one that is not 0: the next larger in size, or the next smaller. */
double beside(double x, bool is_larger);
double infinite(void);
double not_a_number(void);
bool is_finite(double x);

/* Values about the limits. */
size_t dimension_at(size_t k); /* 6 */
size_t order_at(size_t k);     /* 6 */
size_t rows_at(size_t k);      /* 6 */
size_t number_at(size_t k);    /* 8 */
double side_at(size_t k);      /* 8 */
bool is_side(size_t k);
/* A coordinate of a point, or of the centre, of a cell about 7: the border, 1 + 2^-20 halves of the side from there, and the floats beside
   it; the cell's face; the ends of the ranges; zeros; and what is not finite. */
double coordinate_at(size_t k, double half); /* 22 */

/* The lowest of the numbers that document 01 gives; 0 is none. */
uint8_t of_order(size_t order);
uint8_t of_shape(size_t dimension, size_t order);
uint8_t of_reference(size_t dimension, size_t reference);
uint8_t first(uint8_t a, uint8_t b);
uint8_t unless(bool holds, uint8_t number);

void walk_turn(void);
void walk_chebyshev(void);
void walk_transfer(void);
void walk_points(void);
void walk_distances(void);
void walk_scaling(void);
void walk_coefficients(void);
void walk_curvature(void);
void walk_ratios(void);
void walk_exchange(void);
void walk_choices(void);
void walk_aca(void);

#endif
