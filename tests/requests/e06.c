/* E6: Matrix Market texts, read and written. */
#include "cases.h"

void *memset(void *place, int byte, size_t bytes);
void *memcpy(void *to, const void *from, size_t bytes);
int memcmp(const void *left, const void *right, size_t bytes);

/* Room for the largest block and the longest text of a case, and places past them. */
enum { ENTRIES = 64, BYTES = 4096, PATTERN = 0xa5 };

typedef struct {
    uint8_t text[BYTES];
    double block[ENTRIES];
    size_t sizes[4];
    size_t written[4];
} Lent;
static Lent lent, before;

/* The case has number and line; a call answers both at once. */
static void hold_answer(uint64_t answer)
{
    hold_number("refusal", BBFMM_NUMBER(answer));
    hold_number("line", BBFMM_LINE(answer));
    hold(answer == BBFMM_NUMBER(answer) + 256 * BBFMM_LINE(answer), "the answer taken apart");
}

static void hold_lent(void)
{
    hold(memcmp(&lent, &before, sizeof lent) == 0, "what was lent");
}

/* The case does not list what is answered to who asks for the sizes alone: the same refusal, if it is one of the first lines, and else
   the sizes, which it lists if the block is read. */
static void hold_size(size_t text_length, uint64_t answer)
{
    uint8_t number = BBFMM_NUMBER(answer);
    bool is_early = number == BBFMM_NO_FIRST_LINE || number == BBFMM_NO_SIZE;
    uint64_t found = bbfmm_block_size(lent.text, text_length, lent.sizes, 2);
    hold(found == (is_early ? answer : BBFMM_DONE), "the answer about sizes");
    if (answer == BBFMM_DONE) {
        hold_number("rows", lent.sizes[0]);
        hold_number("columns", lent.sizes[1]);
    }
    if (!is_early) {
        memcpy(lent.sizes, before.sizes, 2 * sizeof lent.sizes[0]);
    }
    hold_lent();
}

void answer_e06_read(void)
{
    size_t block_length = number("block_length");
    memset(&lent, PATTERN, sizeof lent);
    size_t text_length = bytes("text", lent.text, BYTES);
    memcpy(&before, &lent, sizeof before);
    hold(text_length <= BYTES && block_length < ENTRIES, "how much there is room for");
    uint64_t answer = bbfmm_read_block(lent.text, text_length, lent.block, block_length, lent.sizes, 2);
    hold_answer(answer);
    if (answer == BBFMM_DONE) {
        hold_number("rows", lent.sizes[0]);
        hold_number("columns", lent.sizes[1]);
        hold_reals("block", lent.block, block_length);
        memcpy(lent.block, before.block, block_length * sizeof lent.block[0]);
        memcpy(lent.sizes, before.sizes, 2 * sizeof lent.sizes[0]);
    }
    hold_lent();
    hold_size(text_length, answer);
}

void answer_e06_write(void)
{
    size_t text_length = number("text_length");
    memset(&lent, PATTERN, sizeof lent);
    size_t block_length = reals("block", lent.block, ENTRIES);
    memcpy(&before, &lent, sizeof before);
    hold(text_length < BYTES && block_length < ENTRIES, "how much there is room for");
    uint64_t answer = bbfmm_write_block(
        number("rows"), number("columns"), lent.block, block_length, lent.text, text_length, lent.written, 1);
    hold_answer(answer);
    if (answer == BBFMM_DONE) {
        size_t count = lent.written[0];
        hold(count <= text_length, "how much was written");
        hold_bytes("text", lent.text, count);
        memcpy(lent.text, before.text, count <= BYTES ? count : 0);
        lent.written[0] = before.written[0];
    }
    hold_lent();
}
