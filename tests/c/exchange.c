/* Matrix Market texts: what is read and written, written out here as text; every refusal with its line, and all lent memory. */
#include "check.h"

/* Of the C library, whose headers the kit has not. */
size_t strlen(const char *text);
void *memcpy(void *to, const void *from, size_t bytes);

#define FIRST "%%MatrixMarket matrix array integer general\n"

static const double NONE = 0.0 / 0.0;
static const double INFINITE = 1 / 0.0;

static const size_t X = (size_t)0xa5a5a5a5a5a5a5a5;

/* What is lent, full of the pattern before each call; as much as is wanted of it, and some past that. */
static double block[16];
static size_t sizes[4];
static uint8_t text[256];
static size_t written[3];

static void fill_all(void)
{
    FILL(block);
    FILL(sizes);
    FILL(text);
    FILL(written);
}

static bool kept_all(void)
{
    return KEPT(block) && KEPT(sizes) && KEPT(text) && KEPT(written);
}

/* READING */

static uint64_t read_lent(const char *what, size_t block_length, size_t sizes_length)
{
    fill_all();
    return bbfmm_read_block((const uint8_t *)what, strlen(what), block, block_length, sizes, sizes_length);
}

static bool is_refusal(uint64_t answer, uint8_t number, uint64_t line)
{
    return BBFMM_NUMBER(answer) == number && BBFMM_LINE(answer) == line && answer == number + 256 * line;
}

/* Whether a text is read as this block, and nothing else is written. */
static bool reads(const char *what, size_t rows, size_t columns, const double *entries)
{
    size_t count = rows * columns;
    bool is = read_lent(what, count, 2) == BBFMM_DONE && sizes[0] == rows && sizes[1] == columns;
    is = is && same(block, entries, count * sizeof *entries) && kept(block + count, sizeof block - count * sizeof *block);
    is = is && kept(sizes + 2, 2 * sizeof *sizes) && KEPT(text) && KEPT(written);
    fill_all();
    is = is && bbfmm_block_size((const uint8_t *)what, strlen(what), sizes, 2) == BBFMM_DONE;
    return is && sizes[0] == rows && sizes[1] == columns && sizes[2] == X;
}

/* Whether a text is refused so, whatever the lengths of block and answer are; and, if it is refused for a line up to the sizes, whether
   who asks for those hears the same. */
static bool refuses(const char *what, uint8_t number, uint64_t line)
{
    bool is = true;
    for (size_t k = 0; k < 16; k++) {
        uint64_t answer = read_lent(what, k % 4, k / 4);
        is = is && is_refusal(answer, number, line) && kept_all();
    }
    uint64_t answer = bbfmm_block_size((const uint8_t *)what, strlen(what), sizes, 2);
    bool is_early = number == BBFMM_NO_FIRST_LINE || number == BBFMM_NO_SIZE;
    return is && (is_early ? is_refusal(answer, number, line) && kept_all() : answer == BBFMM_DONE);
}

static void test_reading(void)
{
    const double six[6] = {1, -2, 3, 40, 0, -60};
    CHECK(reads(FIRST "3 2\n1\n-2\n3\n40\n0\n-60\n", 3, 2, six));
    CHECK(reads(FIRST "2 3\n1\n-2\n3\n40\n0\n-60\n", 2, 3, six));
    CHECK(reads(FIRST "3 2\n1\n-2\n3\n40\n0\n-60", 3, 2, six));
    CHECK(reads(FIRST "%\n\n   \n%%MatrixMarket\n003   0002\n01\n-02\n003\n40\n-0\n-00060\n", 3, 2, six));
    CHECK(reads("%%MatrixMarket MATRIX aRRAY Integer generaL\n3 2\n1\n-2\n3\n40\n-000\n-60\n", 3, 2, six));
    CHECK(reads(FIRST "0 0", 0, 0, six));
    CHECK(reads(FIRST "0 1024\n", 0, 1024, six));
    CHECK(reads(FIRST "1024 0\n", 1024, 0, six));
}

/* No size is rounded; the largest is 2^53. */
static void test_numbers(void)
{
    const double largest[4] = {0x1p53, -0x1p53, 0x1.fffffffffffffp52, 0x1.fffffffffffffp52 - 1};
    CHECK(reads(FIRST "4 1\n9007199254740992\n-9007199254740992\n9007199254740991\n9007199254740990", 4, 1, largest));
    CHECK(reads(FIRST "1 1\n00000000000000000000000000000000009007199254740992", 1, 1, largest));
    CHECK(refuses(FIRST "1 1\n9007199254740993", BBFMM_BAD_ENTRY, 3));
    CHECK(refuses(FIRST "1 1\n-9007199254740993", BBFMM_BAD_ENTRY, 3));
    CHECK(refuses(FIRST "1 1\n18446744073709551616", BBFMM_BAD_ENTRY, 3));
    CHECK(refuses(FIRST "1 1\n18446744073709551617", BBFMM_BAD_ENTRY, 3));
    CHECK(refuses(FIRST "1 1\n10000000000000000000000000000000000000000", BBFMM_BAD_ENTRY, 3));
}

static void test_first_lines(void)
{
    static const char *const WRONG[] = {"", "\n", "%%MatrixMarket", "%%matrixmarket matrix array integer general\n0 0\n",
        " " FIRST "0 0\n", "%\n" FIRST "0 0\n", "\n" FIRST "0 0\n", "%%MatrixMarket  matrix array integer general\n0 0\n",
        "%%MatrixMarket matrix array integer general \n0 0\n", "%%MatrixMarket matrix array integer general\r\n0 0\n",
        "%%MatrixMarket matrix array integer generals\n0 0\n", "%%MatrixMarket matrix array integer genera\n0 0\n",
        "%%MatrixMarket\tmatrix array integer general\n0 0\n", "%%MatrixMarket matrix array real general\n0 0\n",
        "%%MatrixMarket matrix coordinate integer general\n0 0 0\n", "%%MatrixMarket matrix array integer symmetric\n0 0\n",
        "%%MatrixMarket matrix array integer\n0 0\n"};
    for (size_t k = 0; k < sizeof WRONG / sizeof WRONG[0]; k++) {
        CHECK(refuses(WRONG[k], BBFMM_NO_FIRST_LINE, 1));
    }
}

static void test_sizes(void)
{
    static const char *const WRONG[] = {"0", "0 ", " 0", " 0 0", "0 0 ", "0\t0", "0 0\r", "+0 0", "-0 0", "0 -0", "0 0 0", "1025 0",
        "0 1025", "18446744073709551616 0", "0 18446744073709551617", "00001025 0", "x", "0. 0", "0,0", "\t", " %", "- 0"};
    static char what[128];
    CHECK(refuses(FIRST, BBFMM_NO_SIZE, 2));
    CHECK(refuses("%%MatrixMarket matrix array integer general", BBFMM_NO_SIZE, 2));
    CHECK(refuses(FIRST "%\n \n", BBFMM_NO_SIZE, 4));
    CHECK(refuses(FIRST "%\n\n%", BBFMM_NO_SIZE, 5));
    CHECK(refuses(FIRST "%\n\n1025 1\n", BBFMM_NO_SIZE, 4));
    for (size_t k = 0; k < sizeof WRONG / sizeof WRONG[0]; k++) {
        memcpy(what, FIRST, sizeof FIRST - 1);
        memcpy(what + sizeof FIRST - 1, WRONG[k], strlen(WRONG[k]) + 1);
        CHECK(refuses(what, BBFMM_NO_SIZE, 2));
    }
}

static void test_entries(void)
{
    static const char *const WRONG[] = {"\n", " \n", "%\n", "+5\n", " 5\n", "5 \n", "\t5\n", "5\r\n", "5.\n", "5e0\n", "-\n", "--5\n",
        "- 5\n", "5-\n", "0x5\n", "5 6\n", "/\n", ":\n"};
    static char what[128];
    for (size_t k = 0; k < 2 * sizeof WRONG / sizeof WRONG[0]; k++) {
        const char *wrong = WRONG[k / 2];
        const char *head = k % 2 == 0 ? FIRST "2 1\n" : FIRST "%\n2 1\n7\n";
        memcpy(what, head, strlen(head));
        memcpy(what + strlen(head), wrong, strlen(wrong) + 1);
        CHECK(refuses(what, BBFMM_BAD_ENTRY, k % 2 == 0 ? 3 : 5));
    }
}

/* Too few and too many. Past the last entry it does not matter what stands in a line; before it, an earlier line counts. */
static void test_counts(void)
{
    CHECK(refuses(FIRST "1 1", BBFMM_WRONG_COUNT, 3));
    CHECK(refuses(FIRST "1 1\n", BBFMM_WRONG_COUNT, 3));
    CHECK(refuses(FIRST "%\n2 2\n1\n2\n3\n", BBFMM_WRONG_COUNT, 7));
    CHECK(refuses(FIRST "1024 1024\n1\n2\n3\n", BBFMM_WRONG_COUNT, 6));
    CHECK(refuses(FIRST "0 0\n\n", BBFMM_WRONG_COUNT, 3));
    CHECK(refuses(FIRST "0 5\n5", BBFMM_WRONG_COUNT, 3));
    CHECK(refuses(FIRST "1 1\n5\n\n", BBFMM_WRONG_COUNT, 4));
    CHECK(refuses(FIRST "1 1\n5\n6", BBFMM_WRONG_COUNT, 4));
    CHECK(refuses(FIRST "1 1\n5\n%", BBFMM_WRONG_COUNT, 4));
    CHECK(refuses(FIRST "1 1\n5\nx\ny\n", BBFMM_WRONG_COUNT, 4));
    CHECK(refuses(FIRST "2 1\nx\n", BBFMM_BAD_ENTRY, 3));
    CHECK(refuses(FIRST "1 1\nx\n6\n", BBFMM_BAD_ENTRY, 3));
    CHECK(refuses("x\nx\nx\n", BBFMM_NO_FIRST_LINE, 1));
    CHECK(refuses(FIRST "x\nx\nx\n", BBFMM_NO_SIZE, 2));
}

/* Every other length of the block and of the sizes. */
static void test_lengths(void)
{
    const char *good = FIRST "2 3\n1\n2\n3\n4\n5\n6\n";
    for (size_t k = 0; k < 10 * 5; k++) {
        size_t block_length = k % 10;
        size_t sizes_length = k / 10;
        bool is_right = block_length == 6 && sizes_length == 2;
        CHECK(read_lent(good, block_length, sizes_length) == (is_right ? BBFMM_DONE : BBFMM_WRONG_LENGTH));
        CHECK(is_right || kept_all());
        fill_all();
        uint64_t answer = bbfmm_block_size((const uint8_t *)good, strlen(good), sizes, sizes_length);
        CHECK(answer == (sizes_length == 2 ? BBFMM_DONE : BBFMM_WRONG_LENGTH));
        CHECK(sizes_length == 2 || kept_all());
    }
}

/* WRITING */

/* Whether a block is written so, into a buffer that is longer, and into one that is exactly so long; and not into one that is short. */
static bool writes(size_t rows, size_t columns, const double *entries, const char *expected)
{
    size_t length = strlen(expected);
    size_t count = rows * columns;
    bool is = true;
    for (size_t more = 0; more < 3; more++) {
        fill_all();
        is = is && bbfmm_write_block(rows, columns, entries, count, text, length + more, written, 1) == BBFMM_DONE;
        is = is && same(text, expected, length) && kept(text + length, sizeof text - length);
        is = is && written[0] == length && written[1] == X && KEPT(block) && KEPT(sizes);
    }
    for (size_t shorter = 0; shorter < length; shorter++) {
        fill_all();
        is = is && bbfmm_write_block(rows, columns, entries, count, text, shorter, written, 1) == BBFMM_WRONG_LENGTH && kept_all();
    }
    return is;
}

static void test_writing(void)
{
    const double six[6] = {1, -2, 3, 40, 0, -60};
    const double largest[4] = {0x1p53, -0x1p53, 0x1.fffffffffffffp52, -1000000};
    CHECK(writes(3, 2, six, FIRST "3 2\n1\n-2\n3\n40\n0\n-60\n"));
    CHECK(writes(1, 4, largest, FIRST "1 4\n9007199254740992\n-9007199254740992\n9007199254740991\n-1000000\n"));
    CHECK(writes(0, 0, six, FIRST "0 0\n"));
    CHECK(writes(1024, 0, six, FIRST "1024 0\n"));
    CHECK(writes(0, 1024, six, FIRST "0 1024\n"));
}

/* What is told to the call: all of it right, or not. */
static uint64_t write_lent(size_t rows, size_t columns, size_t block_length, size_t text_length, size_t written_length)
{
    static double before[16];
    memcpy(before, block, sizeof block);
    FILL(text);
    FILL(written);
    uint64_t answer = bbfmm_write_block(rows, columns, block, block_length, text, text_length, written, written_length);
    CHECK(HOLDS(block, before) && (answer == BBFMM_DONE || (KEPT(text) && KEPT(written))));
    return answer;
}

static void test_unwritable(void)
{
    const double wrong[12] = {0.5, -0.5, 0x1.0000000000001p53, -0x1.0000000000001p53, NONE, -NONE, INFINITE, -INFINITE, -0.0, 0x1p-1074,
        0x1.fffffffffffffp51, 0x1p64};
    for (size_t k = 0; k < 12 * 6; k++) {
        FILL(block);
        for (size_t i = 0; i < 6; i++) {
            block[i] = (double)i;
        }
        block[k % 6] = wrong[k / 6];
        CHECK(is_refusal(write_lent(2, 3, 6, sizeof text, 1), BBFMM_BAD_ENTRY, 3 + k % 6));
        /* An earlier one counts; the lengths of text and answer are looked at later; that of the block, and the sizes, before. */
        block[0] = wrong[11 - k / 6];
        CHECK(is_refusal(write_lent(2, 3, 6, 0, 0), BBFMM_BAD_ENTRY, 3));
        CHECK(is_refusal(write_lent(2, 3, 5, 0, 0), BBFMM_WRONG_LENGTH, 0));
        CHECK(is_refusal(write_lent(2, 3, 7, sizeof text, 1), BBFMM_WRONG_LENGTH, 0));
        CHECK(is_refusal(write_lent(1025, 3, 6, sizeof text, 1), BBFMM_NO_SIZE, 2));
        CHECK(is_refusal(write_lent(2, (size_t)-1, 5, 0, 0), BBFMM_NO_SIZE, 2));
        CHECK(is_refusal(write_lent((size_t)1 << 32, (size_t)1 << 32, 0, 0, 0), BBFMM_NO_SIZE, 2));
    }
}

/* How much was written is told to one place. */
static void test_written_lengths(void)
{
    for (size_t i = 0; i < 6; i++) {
        block[i] = 1;
    }
    CHECK(write_lent(2, 3, 6, sizeof text, 0) == BBFMM_WRONG_LENGTH);
    CHECK(write_lent(2, 3, 6, sizeof text, 2) == BBFMM_WRONG_LENGTH);
    CHECK(write_lent(2, 3, 6, sizeof text, 1) == BBFMM_DONE && written[0] == 60);
}

/* ROUND TRIP: what is written is read as the same block, bit for bit. */
static void test_round_trip(void)
{
    const double entries[8] = {0, 1, -1, 9, -10, 0x1p53, -0x1p53, 123456789};
    for (size_t rows = 0; rows <= 8; rows++) {
        for (size_t columns = 0; rows * columns <= 8 && columns <= 8; columns++) {
            size_t count = rows * columns;
            fill_all();
            CHECK(bbfmm_write_block(rows, columns, entries, count, LEND(text), written, 1) == BBFMM_DONE);
            CHECK(bbfmm_read_block(text, written[0], block, count, sizes, 2) == BBFMM_DONE);
            CHECK(sizes[0] == rows && sizes[1] == columns && same(block, entries, count * sizeof *block));
        }
    }
}

void test_exchange(void)
{
    test_reading();
    test_numbers();
    test_first_lines();
    test_sizes();
    test_entries();
    test_counts();
    test_lengths();
    test_writing();
    test_unwritable();
    test_written_lengths();
    test_round_trip();
}
