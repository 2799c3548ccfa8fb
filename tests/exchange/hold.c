/* The calls beside the rule. Everything that is lent is compared, byte by byte, and so is what lies about it: the rule does its work in
   memory of its own, which was filled alike. */
#include "hold.h"
#include "rule.h"

void *memcpy(void *to, const void *from, size_t bytes);
int memcmp(const void *left, const void *right, size_t bytes);
int printf(const char *format, ...);

enum { PRINTED = 10, SHOWN = 200 };

Tally tally;
double read_entries[MOST * MOST + 8];
size_t read_sizes[8];
uint8_t written_text[MOST_BYTES];
size_t written_length;
static size_t written_own[8];
static size_t calls;

/* What is at fault stands here while a call is held: a text, or nothing. */
static const uint8_t *shown;
static size_t shown_length;

static void show_text(void)
{
    for (size_t i = 0; i < shown_length && i < SHOWN; i++) {
        uint8_t byte = shown[i];
        printf(byte == 10 ? "\\n" : byte >= ' ' && byte < 127 ? "%c" : "\\x%02x", byte);
    }
    printf(shown_length > SHOWN ? "..\n" : "\n");
}

void expect(bool holds, const char *what, uint64_t number)
{
    if (!holds && tally.faults++ < PRINTED) {
        printf("call %zu: %s: %zu and line %zu\n", calls, what, (size_t)BBFMM_NUMBER(number), (size_t)BBFMM_LINE(number));
        show_text();
    }
}

/* READING */

static void try_size(const uint8_t *text, size_t text_length, size_t sizes_length, Placement placement)
{
    fill(read_sizes, sizes_length * sizeof *read_sizes);
    uint64_t expected = rule_size(text, text_length, read_sizes, sizes_length);
    const uint8_t *lent_text = lend(TEXT, placement, text, text_length, ++calls);
    size_t *lent_sizes = lend(SIZES, placement, 0, sizes_length * sizeof *lent_sizes, calls);
    uint64_t answer = bbfmm_block_size(lent_text, text_length, lent_sizes, sizes_length);
    expect(answer == expected, "of the sizes, another answer", answer);
    expect(is_left(TEXT, text), "asking for the sizes, the text is changed", answer);
    expect(is_left(SIZES, read_sizes), "the sizes differ", answer);
    tally.sizes[BBFMM_NUMBER(expected)]++;
}

uint64_t try_read(const uint8_t *text, size_t text_length, Reading told, Placement placement)
{
    shown = text;
    shown_length = text_length;
    try_size(text, text_length, told.sizes_length, placement);
    fill(read_entries, told.block_length * sizeof *read_entries);
    fill(read_sizes, told.sizes_length * sizeof *read_sizes);
    uint64_t expected = rule_read(text, text_length, read_entries, told.block_length, read_sizes, told.sizes_length);
    const uint8_t *lent_text = lend(TEXT, placement, text, text_length, ++calls);
    double *lent_block = lend(BLOCK, placement, 0, told.block_length * sizeof *lent_block, calls);
    size_t *lent_sizes = lend(SIZES, placement, 0, told.sizes_length * sizeof *lent_sizes, calls);
    uint64_t answer = bbfmm_read_block(lent_text, text_length, lent_block, told.block_length, lent_sizes, told.sizes_length);
    expect(answer == expected, "reading, another answer", answer);
    expect(is_left(TEXT, text), "reading, the text is changed", answer);
    expect(is_left(BLOCK, read_entries), "reading, the block differs", answer);
    expect(is_left(SIZES, read_sizes), "reading, the sizes differ", answer);
    tally.reads[BBFMM_NUMBER(expected)]++;
    return expected;
}

/* WRITING */

uint64_t try_write(const double *block, Writing told, Placement placement)
{
    size_t block_bytes = told.block_length * sizeof *block;
    size_t written_bytes = told.written_length * sizeof *written_own;
    fill(written_text, told.text_length);
    fill(written_own, written_bytes);
    uint64_t expected = rule_write(
        told.rows, told.columns, block, told.block_length, written_text, told.text_length, written_own, told.written_length);
    const double *lent_block = lend(BLOCK, placement, block, block_bytes, ++calls);
    uint8_t *lent_text = lend(TEXT, placement, 0, told.text_length, calls);
    size_t *lent_written = lend(WRITTEN, placement, 0, written_bytes, calls);
    shown_length = 0;
    uint64_t answer = bbfmm_write_block(
        told.rows, told.columns, lent_block, told.block_length, lent_text, told.text_length, lent_written, told.written_length);
    expect(answer == expected, "writing, another answer", answer);
    expect(is_left(BLOCK, block), "writing, the block is changed", answer);
    expect(is_left(TEXT, written_text), "writing, the text differs", answer);
    expect(is_left(WRITTEN, written_own), "writing, how much was written differs", answer);
    tally.writes[BBFMM_NUMBER(expected)]++;
    written_length = expected == BBFMM_DONE ? written_own[0] : 0;
    return expected;
}

size_t length_of_text(size_t rows, size_t columns, const double *block)
{
    size_t length = 0;
    uint64_t answer = rule_write(rows, columns, block, rows * columns, written_text, MOST_BYTES, &length, 1);
    return answer == BBFMM_DONE ? length : 0;
}

void try_round_trip(size_t rows, size_t columns, const double *block, Placement placement)
{
    size_t count = rows * columns;
    size_t length = length_of_text(rows, columns, block);
    Writing writing = {rows, columns, count, length, 1};
    uint64_t answer = try_write(block, writing, placement);
    expect(answer == BBFMM_DONE && written_length == length, "a block is not written", answer);
    /* What the call wrote is what the rule wrote, since the two were compared. */
    Reading reading = {count, 2};
    answer = try_read(written_text, length, reading, placement);
    expect(answer == BBFMM_DONE, "what was written is not read", answer);
    expect(read_sizes[0] == rows && read_sizes[1] == columns, "what was written is read with other sizes", answer);
    expect(memcmp(read_entries, block, count * sizeof *block) == 0, "what was written is read as another block", answer);
    tally.round_trips++;
}
