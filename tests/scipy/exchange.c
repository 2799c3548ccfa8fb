/* For tests/scipy/run: takes texts from standard input and puts out what our calls make of each. Numbers are eight bytes, the lowest
   first. In: the length of a text, and the text. Out: the answer of bbfmm_read_block; where that is 0 also rows, columns, the entries'
   bits, and what bbfmm_write_block makes of them, behind its length. Ends with 1 where it cannot go on. */
#include "bbfmm.h"

int getchar(void);
int putchar(int byte);
void *malloc(size_t bytes);
void free(void *memory);
void *memcpy(void *to, const void *from, size_t bytes);
void exit(int status);

/* The longest text that is written: the first line, the size line, and an entry with a minus, 16 digits and a newline. */
enum { HEAD = 64, ENTRY = 18 };

static void *room_for(size_t bytes)
{
    void *room = malloc(bytes + 1); /* A call is lent no null pointer. */
    if (room == 0) {
        exit(1);
    }
    return room;
}

/* NUMBERS AND BYTES */

static bool get_number(uint64_t *number)
{
    *number = 0;
    for (size_t k = 0; k < 8; k++) {
        int byte = getchar();
        if (byte < 0) {
            return false;
        }
        *number |= (uint64_t)byte << 8 * k;
    }
    return true;
}

static void put_number(uint64_t number)
{
    for (size_t k = 0; k < 8; k++) {
        putchar((int)(number >> 8 * k & 0xff));
    }
}

static uint8_t *get_text(size_t length)
{
    uint8_t *text = room_for(length);
    for (size_t i = 0; i < length; i++) {
        text[i] = (uint8_t)getchar();
    }
    return text;
}

static uint64_t bits_of(double x)
{
    uint64_t bits;
    memcpy(&bits, &x, sizeof bits);
    return bits;
}

/* A TEXT */

static void put_written(const size_t *sizes, const double *block, size_t block_length)
{
    size_t text_length = HEAD + ENTRY * block_length;
    uint8_t *text = room_for(text_length);
    size_t written = 0;
    if (bbfmm_write_block(sizes[0], sizes[1], block, block_length, text, text_length, &written, 1) != BBFMM_DONE) {
        exit(1);
    }
    put_number(written);
    for (size_t i = 0; i < written; i++) {
        putchar(text[i]);
    }
    free(text);
}

static void answer_text(const uint8_t *text, size_t text_length)
{
    size_t sizes[2] = {0, 0};
    bbfmm_block_size(text, text_length, sizes, 2);
    size_t block_length = sizes[0] * sizes[1];
    double *block = room_for(block_length * sizeof *block);
    uint64_t answer = bbfmm_read_block(text, text_length, block, block_length, sizes, 2);
    put_number(answer);
    if (answer == BBFMM_DONE) {
        put_number(sizes[0]);
        put_number(sizes[1]);
        for (size_t k = 0; k < block_length; k++) {
            put_number(bits_of(block[k]));
        }
        put_written(sizes, block, block_length);
    }
    free(block);
}

int main(void)
{
    uint64_t length;
    while (get_number(&length)) {
        uint8_t *text = get_text(length);
        answer_text(text, length);
        free(text);
    }
    return 0;
}
