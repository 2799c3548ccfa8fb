/* Texts that are drawn: good ones, of which the block is known, and damaged ones. */
#ifndef TEXTS_H
#define TEXTS_H

#include "bbfmm.h"

/* A text, with room for that of the largest block. */
enum { TEXT_ROOM = 1 << 25 };
typedef struct {
    uint8_t bytes[TEXT_ROOM];
    size_t length;
} Text;

/* The text that is drawn last, and its block. */
extern Text drawn;
extern double drawn_block[1024 * 1024];
extern size_t drawn_rows, drawn_columns;

/* Draws a block that can be written; its entries have any number of digits, and either sign. */
void draw_block(size_t rows, size_t columns);

/* Draws a text of that block: comments and blank lines, letter case, zeros before numbers, a minus before 0, spaces between the sizes,
   and whether the last newline is there. A plain one has few of these. */
void draw_text(bool is_plain);

/* Damages the text in one way: a byte is changed, dropped, doubled or put in; lines are exchanged, dropped, doubled; or the end is
   missing. */
void damage_text(void);
enum { DAMAGES = 8 };
extern size_t damages[DAMAGES];

/* To make a text by hand. */
void put_bytes(const char *bytes);
void put_first_line(void);

#endif
