/* A call on a block, with all that is lent to it, and what of the block its report lists. */
#ifndef LEND_H
#define LEND_H

#include "bbfmm.h"

/* The most rows and columns, and how many entries are looked at past each buffer. */
enum { LINE = 1024, PAST = 8, COUNTS = 3, NUMBERS = 2 };

/* The places of `counts`. */
enum { RANK, STOP, READ };

/* What is asked. The samples stand apart, column by column. */
typedef struct {
    size_t rows, columns;
    double epsilon;
    bool restart;
} Question;

/* What is lent and written. */
typedef struct {
    double u[LINE * LINE + PAST], v[LINE * LINE + PAST];
    uint16_t row_list[LINE + PAST], column_list[LINE + PAST];
    double row[LINE + PAST], column[LINE + PAST];
    size_t counts[COUNTS + PAST];
    double numbers[NUMBERS + PAST];
} Room;

/* Fills the room with a pattern and makes the call. Answers the number that it told. */
uint8_t ask(const Question *q, const double *samples, Room *room);

/* The first thing in which two rooms differ after a call, past their buffers' ends too; null where they are the same, by bits, any NaN
   being any NaN. */
const char *difference(const Question *q, const Room *left, const Room *right);

/* Marks the rows and the columns that a report lists: as many as were read, and as the rank says. */
typedef struct {
    bool rows[LINE], columns[LINE];
} Listed;
void mark_listed(const Question *q, const Room *room, Listed *listed);
bool is_outside(const Listed *listed, size_t row, size_t column);

#endif
