/* Makes the calls, and holds what they answer and all that they leave to the rule. */
#ifndef HOLD_H
#define HOLD_H

#include "bbfmm.h"
#include "lend.h"

/* The limits: rows or columns; the bytes of a text; and the highest number of a refusal. */
enum { MOST = 1024, MOST_BYTES = 1 << 25, NUMBERS = BBFMM_WRONG_COUNT + 1 };

/* What was met: how often each number came, a list a call; blocks that were written and read back; and faults. */
typedef struct {
    size_t sizes[NUMBERS], reads[NUMBERS], writes[NUMBERS];
    size_t round_trips;
    size_t faults;
} Tally;
extern Tally tally;

/* What is told to a call that reads, beside the text; and to the one that writes, beside the block. */
typedef struct {
    size_t block_length, sizes_length;
} Reading;
typedef struct {
    size_t rows, columns;
    size_t block_length, text_length, written_length;
} Writing;

/* Asks for the sizes, and then for the block. Answers what the rule says of the block; if it is read, it stands in `read_entries` then,
   and its rows and columns in `read_sizes`. */
uint64_t try_read(const uint8_t *text, size_t text_length, Reading told, Placement placement);
extern double read_entries[MOST * MOST + 8];
extern size_t read_sizes[8];

/* Writes, and answers what the rule says. What is written stands in `written_text` then, and how much it is in `written_length`. */
uint64_t try_write(const double *block, Writing told, Placement placement);
extern uint8_t written_text[MOST_BYTES];
extern size_t written_length;

/* How long the text of a block is that can be written; 0 of another. */
size_t length_of_text(size_t rows, size_t columns, const double *block);

/* Writes a block that can be written, reads that, and holds what is read to the block, bit for bit. */
void try_round_trip(size_t rows, size_t columns, const double *block, Placement placement);

/* Counts a fault where something does not hold, and says what. */
void expect(bool holds, const char *what, uint64_t number);

#endif
