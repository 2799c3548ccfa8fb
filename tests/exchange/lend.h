/* Memory to lend, so that a call which reads or writes outside of it is seen: each buffer has an area of its own between two stretches
   that nobody may touch. A touch there ends the program, with 1. */
#ifndef LEND_H
#define LEND_H

#include "bbfmm.h"

/* Where a buffer lies in its area: it ends right before the forbidden stretch; it begins right behind the other; or it lies between,
   and what stands about it is looked at afterwards. */
typedef enum { AT_END, AT_BEGIN, BETWEEN, PLACEMENTS } Placement;

/* The buffers of the calls. */
typedef enum { TEXT, BLOCK, SIZES, WRITTEN, BUFFERS } Buffer;

/* Makes the areas, each with room for so many bytes, and sees to touches outside. */
void make_areas(const size_t *rooms);

/* Lends so many bytes, and puts the content there, or the pattern where there is none. What stands about it is chosen by k. */
void *lend(Buffer buffer, Placement placement, const void *content, size_t bytes, size_t k);

/* The same pattern in memory that is not lent. */
void fill(void *memory, size_t bytes);

/* Whether a buffer that was lent has the content now, and nothing about it was changed. */
bool is_left(Buffer buffer, const void *content);

#endif
