/* What the tests share: a count of what holds, and buffers that are lent full of a pattern. */
#ifndef CHECK_H
#define CHECK_H

#include "bbfmm.h"

/* Counts a test, and prints a line if it does not hold. */
void check(bool holds, const char *file, int line, const char *what);
#define CHECK(holds) check((holds), __FILE__, __LINE__, #holds)

/* Fills a buffer with the pattern; and says whether it holds nothing else. */
void fill(void *buffer, size_t bytes);
bool kept(const void *buffer, size_t bytes);
#define FILL(buffer) fill((buffer), sizeof(buffer))
#define KEPT(buffer) kept((buffer), sizeof(buffer))

/* Whether an array has the bytes of another: for floats, so that the sign of a zero counts. */
bool same(const void *left, const void *right, size_t bytes);
#define HOLDS(buffer, ...) same((buffer), __VA_ARGS__, sizeof(buffer))

/* A pointer and the number of entries behind it, as a call takes a buffer. */
#define LEND(buffer) (buffer), (sizeof(buffer) / sizeof(buffer)[0])
/* The same with one entry less than there are. */
#define SHORT(buffer) (buffer), (sizeof(buffer) / sizeof(buffer)[0] - 1)

void test_turn(void);
void test_chebyshev(void);
void test_transfer(void);
void test_points(void);
void test_distances(void);
void test_coefficients(void);
void test_curvature(void);
void test_ratios(void);
void test_exchange(void);
void test_choices(void);
void test_aca(void);

#endif
