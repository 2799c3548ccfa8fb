/* Makes the call on a block in both modes, and holds all that it leaves to the rule, and to what is promised of every run. */
#ifndef HOLD_H
#define HOLD_H

#include "bbfmm.h"

/* The most rows and columns, and how many entries are looked at past each buffer. */
enum { LINE = 1024, PAST = 8 };

/* The block that is asked about, column by column. */
extern double block[LINE * LINE];

/* What was met: runs, how often each stop came in each mode, rows read without a pivot in restart mode, blocks that both modes must
   treat alike, how often a row and a column was listed, and faults. */
typedef struct {
    size_t runs;
    size_t stops[2][5];
    size_t without_pivot;
    size_t alike;
    size_t rows[LINE], columns[LINE];
    size_t faults;
} Tally;
extern Tally tally;

void try_block(size_t rows, size_t columns, double epsilon);

#endif
