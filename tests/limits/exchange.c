/* Matrix Market texts. Texts are put together from a first line, sizes about the limit, entries, too few or too many, one of them about
   the limit; and asked for their sizes and for their block, with lengths walked each for itself. Blocks are written with sizes, entries
   and lengths about their limits. A line that is wrong counts as a wrong number. */
#include "walk.h"

void *memcpy(void *to, const void *from, size_t bytes);
int memcmp(const void *left, const void *right, size_t bytes);

enum { MOST = 1024, ENTRIES = 3200, BYTES = 70000, NO_NUMBER = 255 };

BUFFER(block, double, ENTRIES, 7);
BUFFER(text, uint8_t, BYTES, 77);
BUFFER(sizes, size_t, 8, 77);
BUFFER(written, size_t, 8, 77);

/* Number and line, as an outcome: if the line is another, so is the number. */
static Outcome outcome(uint64_t expected, uint64_t answer, bool is_changed)
{
    uint8_t number = BBFMM_NUMBER(answer);
    bool is_other = number == BBFMM_NUMBER(expected) && answer != expected;
    return (Outcome){BBFMM_NUMBER(expected), is_other ? NO_NUMBER : number, is_changed};
}

static uint64_t at_line(uint8_t number, uint64_t line)
{
    return number + 256 * line;
}

/* READING: the text is not lent as a pattern, but looked at here. */

static uint8_t read_text[BYTES], text_before[BYTES];
static size_t text_length;

static void put(const char *bytes)
{
    for (; *bytes != 0; bytes++) {
        read_text[text_length++] = (uint8_t)*bytes;
    }
}

typedef struct {
    const char *text;
    size_t number; /* or above the limit */
} Size;
static const Size SIZES[7] = {{"0", 0}, {"1", 1}, {"003", 3}, {"1024", MOST}, {"1025", MOST + 1}, {"18446744073709551617", MOST + 1},
    {"00000000000000000000000001025", MOST + 1}};

typedef struct {
    const char *text;
    bool is_good;
} Entry;
static const Entry ODD[8] = {{"7", true}, {"9007199254740992", true}, {"-000000000000000000009007199254740992", true}, {"-0", true},
    {"9007199254740993", false}, {"-18446744073709551617", false}, {"+7", false}, {"", false}};

/* What a text is made of. The odd entry is the first or the last of those that are there. */
typedef struct {
    bool is_first_good;
    Size rows, columns;
    size_t there; /* entries */
    Entry odd;
    bool is_odd_last;
} Trial;

static size_t odd_place(const Trial *t)
{
    return t->is_odd_last && t->there > 0 ? t->there - 1 : 0;
}

static void put_text(const Trial *t)
{
    text_length = 0;
    put(t->is_first_good ? "%%MatrixMarket matrix array integer general\n" : "%%MatrixMarket matrix array integer  general\n");
    put(t->rows.text);
    put(" ");
    put(t->columns.text);
    put("\n");
    for (size_t k = 0; k < t->there; k++) {
        put(k == odd_place(t) ? t->odd.text : "7");
        put("\n");
    }
    memcpy(text_before, read_text, text_length);
}

/* The refusal of the text, by document 03: line 1 is the first, line 2 the sizes, and entry k, from 0, line 3 + k. */
static uint64_t of_head(const Trial *t)
{
    if (!t->is_first_good) {
        return at_line(BBFMM_NO_FIRST_LINE, 1);
    }
    return t->rows.number > MOST || t->columns.number > MOST ? at_line(BBFMM_NO_SIZE, 2) : BBFMM_DONE;
}

static uint64_t of_text(const Trial *t)
{
    size_t count = t->rows.number * t->columns.number;
    size_t odd = odd_place(t);
    if (of_head(t) != BBFMM_DONE) {
        return of_head(t);
    }
    if (odd < lesser(t->there, count) && !t->odd.is_good) {
        return at_line(BBFMM_BAD_ENTRY, 3 + odd);
    }
    return t->there != count ? at_line(BBFMM_WRONG_COUNT, 3 + lesser(t->there, count)) : BBFMM_DONE;
}

static Trial trial_at(size_t *k)
{
    Trial t = {true, {0, 0}, {0, 0}, 0, {0, true}, false};
    t.is_first_good = take(k, 2) == 0;
    t.rows = SIZES[take(k, 7)];
    t.columns = SIZES[take(k, 7)];
    return t;
}

static bool are_sizes(const Trial *t)
{
    return sizes_place[0] == t->rows.number && sizes_place[1] == t->columns.number;
}

/* Two first lines, seven sizes each way, none or one entry, four lengths of the answer. */
enum { AT_SIZES = 2 * 7 * 7 * 2 * 4 };
static Outcome block_size(size_t k)
{
    Trial t = trial_at(&k);
    t.there = take(&k, 2);
    t.odd = ODD[7];
    put_text(&t);
    bool fits = lend(&sizes, 2, k);
    uint64_t expected = of_head(&t) != BBFMM_DONE ? of_head(&t) : unless(fits, BBFMM_WRONG_LENGTH);
    uint64_t answer = bbfmm_block_size(read_text, text_length, LENT(sizes));
    bool is_changed = memcmp(read_text, text_before, text_length) != 0 || (answer == BBFMM_DONE && !are_sizes(&t));
    return outcome(expected, answer, is_changed);
}

/* Whether the block is something else than sevens and the odd entry. */
static bool is_other_block(const Trial *t, size_t count)
{
    static const double VALUES[4] = {7, 0x1p53, -0x1p53, 0};
    bool is = false;
    for (size_t i = 0; i < count; i++) {
        bool is_odd = i == odd_place(t);
        double value = 7;
        for (size_t n = 0; n < 4 && is_odd; n++) {
            value = t->odd.text == ODD[n].text ? VALUES[n] : value;
        }
        is = is || memcmp(&block_place[i], &value, sizeof value) != 0;
    }
    return is;
}

/* The same first lines and sizes; as many entries as there should be, one less, one more, or two; eight odd entries in two places; four
   lengths of the block and of the answer. A block that is too large here has two entries. */
enum { AT_BLOCKS = 2 * 7 * 7 * 4 * 8 * 2 * 4 * 4 };
static Outcome read_block(size_t k)
{
    Trial t = trial_at(&k);
    size_t count = product(t.rows.number, t.columns.number);
    size_t there = take(&k, 4);
    t.there = there == 3 || count > ENTRIES ? 2 : there == 2 ? count + 1 : count - (there == 1 && count > 0);
    t.odd = ODD[take(&k, 8)];
    t.is_odd_last = take(&k, 2) == 1;
    put_text(&t);
    bool fits = lend(&block, count, take(&k, 4));
    fits = lend(&sizes, 2, k) && fits;
    uint64_t expected = of_text(&t) != BBFMM_DONE ? of_text(&t) : unless(fits, BBFMM_WRONG_LENGTH);
    uint64_t answer = bbfmm_read_block(read_text, text_length, LENT(block), LENT(sizes));
    bool is_changed = memcmp(read_text, text_before, text_length) != 0;
    is_changed = is_changed || (answer == BBFMM_DONE && (!are_sizes(&t) || is_other_block(&t, block.length)));
    return outcome(expected, answer, is_changed);
}

/* WRITING: the block is the pattern, a 7 each, but for one odd entry. */

typedef struct {
    double x;
    size_t length; /* of its text; 0 if it cannot be written */
} Written;

/* Whole numbers up to 2^53; and what is none, or larger, or -0.0. */
static Written odd_at(size_t k)
{
    const double none = 0;
    return (Written[]){{7, 1}, {0, 1}, {0x1p53, 16}, {-0x1p53, 17}, {-1, 2}, {9, 1}, {10, 2}, {0x1.fffffffffffffp52, 16}, {-0.0, 0},
        {0.5, 0}, {0x1.0000000000001p53, 0}, {-0x1.0000000000001p53, 0}, {0x1.8p51 + 0.5, 0}, {1 / none, 0}, {none / none, 0},
        {0x1p-1074, 0}}[k];
}

static size_t digits(size_t n)
{
    return n < 10 ? 1 : 1 + digits(n / 10);
}

static size_t rows_or_columns_at(size_t k)
{
    return (size_t[]){0, 1, 3, MOST, MOST + 1, (size_t)-1}[k];
}

static uint64_t of_writing(size_t rows, size_t columns, bool fits, Written odd, size_t place)
{
    if (rows > MOST || columns > MOST) {
        return at_line(BBFMM_NO_SIZE, 2);
    }
    if (!fits) {
        return BBFMM_WRONG_LENGTH;
    }
    return rows * columns > 0 && odd.length == 0 ? at_line(BBFMM_BAD_ENTRY, 3 + place) : BBFMM_DONE;
}

/* Whether what was written is not so long, or something past it was changed. */
static bool is_more_written(size_t length)
{
    bool is = written_place[0] != length;
    for (size_t i = length; i < text.length; i++) {
        is = is || text_place[i] != text_pattern;
    }
    return is;
}

/* Six sizes each way, sixteen odd entries in two places, four lengths of the block, of the text and of the answer. */
enum { AT_WRITTEN = 6 * 6 * 16 * 2 * 4 * 4 * 4 };
static Outcome write_block(size_t k)
{
    size_t rows = rows_or_columns_at(take(&k, 6));
    size_t columns = rows_or_columns_at(take(&k, 6));
    size_t count = product(rows, columns);
    Written odd = odd_at(take(&k, 16));
    size_t place = take(&k, 2) == 1 && count > 0 && count <= ENTRIES ? count - 1 : 0;
    bool fits = lend(&block, count, take(&k, 4));
    size_t length = 44 + digits(rows) + 1 + digits(columns) + 1 + (count > 0 ? 2 * count - 1 + odd.length : 0);
    size_t digit = take(&k, 4);
    bool is_room = lend(&text, length, digit) || digit == 2;
    is_room = lend(&written, 1, k) && is_room;
    block_place[place] = odd.x;
    uint64_t expected = of_writing(rows, columns, fits, odd, place);
    expected = expected != BBFMM_DONE ? expected : unless(is_room, BBFMM_WRONG_LENGTH);
    uint64_t answer = bbfmm_write_block(rows, columns, LENT(block), LENT(text), LENT(written));
    bool is_changed = memcmp(&block_place[place], &odd.x, sizeof odd.x) != 0;
    is_changed = is_changed || (answer == BBFMM_DONE && is_more_written(length));
    block_place[place] = block_pattern;
    return outcome(expected, answer, is_changed);
}

void walk_exchange(void)
{
    Buffer *const of_size[] = {&sizes};
    Buffer *const of_reading[] = {&block, &sizes};
    Buffer *const of_writing[] = {&block, &text, &written};
    WALK("block_size", AT_SIZES, block_size, of_size);
    WALK("read_block", AT_BLOCKS, read_block, of_reading);
    WALK("write_block", AT_WRITTEN, write_block, of_writing);
}
