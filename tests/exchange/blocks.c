/* Holds bbfmm_block_size, bbfmm_read_block and bbfmm_write_block to their rule: good texts and damaged ones, numbers of all lengths and
   at the limits, blocks with entries that cannot be written, wrong lengths of all that is lent, faults alone and together, and round
   trips. Prints a line, and ends with 1 where something differs. */
#include "../distances/draw.h"
#include "hold.h"
#include "rule.h"
#include "texts.h"

int memcmp(const void *left, const void *right, size_t bytes);
int printf(const char *format, ...);

enum { GOOD = 20000, DAMAGED = 1100000, LENGTHS = 3000, WRITTEN_BLOCKS = 20000, ANY_ENTRIES = 20000 };

static size_t good, damaged, by_hand;

/* GOOD TEXTS */

static size_t draw_size(void)
{
    size_t small = draw_below(5);
    size_t large = draw_below(41);
    return draw_below(4) > 0 ? small : large;
}

/* The rule must read what was drawn, which is known without it; and the call must do what the rule does. */
static void try_good(size_t rows, size_t columns, bool is_plain, Placement placement)
{
    draw_block(rows, columns);
    draw_text(is_plain);
    size_t count = rows * columns;
    Reading told = {count, 2};
    uint64_t answer = try_read(drawn.bytes, drawn.length, told, placement);
    expect(answer == BBFMM_DONE, "a good text is refused", answer);
    expect(read_sizes[0] == rows && read_sizes[1] == columns, "a good text is read with other sizes", answer);
    expect(memcmp(read_entries, drawn_block, count * sizeof *drawn_block) == 0, "a good text is read as another block", answer);
    try_round_trip(rows, columns, drawn_block, placement);
    good++;
}

static void try_good_texts(void)
{
    for (size_t k = 0; k < GOOD; k++) {
        size_t rows = draw_size();
        size_t columns = draw_size();
        try_good(rows, columns, false, k % PLACEMENTS);
    }
}

static void try_large(void)
{
    static const size_t LARGE[][2] = {
        {MOST, 0}, {0, MOST}, {MOST, 1}, {1, MOST}, {MOST, 3}, {7, MOST}, {MOST, 40}, {33, MOST}, {1000, 500}, {MOST, MOST}};
    for (size_t k = 0; k < sizeof LARGE / sizeof LARGE[0]; k++) {
        try_good(LARGE[k][0], LARGE[k][1], true, AT_END);
        if (LARGE[k][0] * LARGE[k][1] <= 40 * MOST) {
            try_good(LARGE[k][0], LARGE[k][1], false, AT_BEGIN);
            try_good(LARGE[k][0], LARGE[k][1], false, BETWEEN);
        }
    }
}

/* DAMAGED TEXTS */

/* How long a block is lent for a text: mostly as its size line says. Where that would be very long, the text has too few entries. */
static size_t draw_block_length(void)
{
    size_t sizes[2] = {drawn_rows, drawn_columns};
    rule_size(drawn.bytes, drawn.length, sizes, 2);
    size_t count = sizes[0] * sizes[1];
    size_t kind = draw_below(32);
    return (count > 4096 ? 1 : count) + (kind == 0 ? 1 : kind == 1 && count > 0 ? (size_t)-1 : 0);
}

static void try_damaged_texts(void)
{
    for (size_t k = 0; k < DAMAGED; k++) {
        size_t rows = draw_below(4);
        size_t columns = draw_below(4);
        draw_block(rows, columns);
        draw_text(true);
        for (size_t n = 1 + draw_below(3); n > 0; n--) {
            damage_text();
        }
        size_t block_length = draw_block_length();
        Reading told = {block_length, draw_below(32) == 0 ? draw_below(5) : 2};
        try_read(drawn.bytes, drawn.length, told, k % PLACEMENTS);
        damaged++;
    }
}

/* NUMBERS, as sizes and as entries: at the limits of what is read and of words, and what is a number elsewhere. */

static const char *const NUMBERS_TRIED[] = {"", "0", "1", "3", "9", "10", "99", "100", "999", "1000", "1023", "1024", "1025", "1026",
    "1029", "1030", "1034", "1124", "2024", "2048", "9999", "10240", "10241", "65535", "65536", "65537", "66560", "4294967295",
    "4294967296", "4294967297", "4294968320", "999999999999999", "1000000000000000", "4503599627370496", "9007199254740991",
    "9007199254740992", "9007199254740993", "9007199254740994", "9007199254740999", "9007199254741000", "9007199254750992",
    "9999999999999999", "10000000000000000", "90071992547409920", "90071992547409921", "18014398509481984", "9223372036854775807",
    "9223372036854775808", "9223372036854775809", "18446744073709551615", "18446744073709551616", "18446744073709551617",
    "18446744073709552640", "18455751272964292608", "99999999999999999999", "340282366920938463463374607431768211456",
    "340282366920938463463374607431768211457", "+1", "-1", "--1", "1-", "-", "+", " 1", "1 ", "1.", "1.0", ".1", "1e0", "1E3", "0x1",
    "1_0", "1,0", "\t1", "1\t", "1\r", "a", "/", ":", "nan", "inf", "%", "%1", "\xef\xbc\x91", "\xb2"};
enum { TRIED = sizeof NUMBERS_TRIED / sizeof NUMBERS_TRIED[0] };

/* With so many zeros before it, and so many digits behind. */
static void put_tried(size_t k, size_t before, size_t behind)
{
    const char *number = NUMBERS_TRIED[k];
    if (*number == '-') {
        put_bytes("-");
        number++;
    }
    for (; before > 0; before--) {
        put_bytes("0");
    }
    put_bytes(number);
    for (; behind > 0; behind--) {
        put_bytes(behind % 2 == 0 ? "0" : "7");
    }
}

/* In each placement, with a block of each length. */
static void try_by_hand(const size_t *block_lengths, size_t count)
{
    for (size_t k = 0; k < count; k++) {
        for (size_t placement = 0; placement < PLACEMENTS; placement++) {
            Reading told = {block_lengths[k], 2};
            try_read(drawn.bytes, drawn.length, told, (Placement)placement);
        }
    }
    by_hand++;
}

static const size_t ZEROS[4] = {0, 1, 7, 400};

/* Each number as rows and as columns, beside each other one, and with many zeros before it or digits behind it. */
static void try_size_lines(void)
{
    static const size_t BLOCK_LENGTHS[2] = {0, 1};
    for (size_t k = 0; k < TRIED * TRIED; k++) {
        size_t zeros = ZEROS[k / TRIED % 4];
        drawn.length = 0;
        put_first_line();
        put_tried(k / TRIED, zeros, 0);
        put_bytes(k % 3 == 0 ? "  " : " ");
        put_tried(k % TRIED, zeros, k % 7 == 0 ? 300 : 0);
        put_bytes(k % 2 == 0 ? "\n" : "");
        try_by_hand(BLOCK_LENGTHS, 2);
    }
}

/* Each number as the only entry, as the first and as the last. */
static void try_entries(void)
{
    static const size_t BLOCK_LENGTHS[3] = {1, 2, 0};
    for (size_t k = 0; k < TRIED * 4 * 6; k++) {
        size_t zeros = ZEROS[k / TRIED % 4];
        size_t kind = k / TRIED / 4;
        drawn.length = 0;
        put_first_line();
        put_bytes(kind % 3 == 0 ? "1 1\n" : "2 1\n");
        put_bytes(kind % 3 == 1 ? "5\n" : "");
        put_tried(k % TRIED, zeros, k % 11 == 0 ? 300 : 0);
        put_bytes(kind % 3 == 2 ? "\n-5" : "");
        put_bytes(kind < 3 ? "\n" : "");
        try_by_hand(BLOCK_LENGTHS, 3);
    }
}

/* What stands where another line should. */
static void try_lines(void)
{
    static const char *const LINES[] = {"", "\n", " \n", "%\n", "%%MatrixMarket matrix array integer general\n", "1 1\n", "0 0\n", "5\n",
        " %\n", "\t\n", "\r\n", "  ", "-0\n", "2  1\n", "1 1"};
    enum { COUNT = sizeof LINES / sizeof LINES[0] };
    static const size_t BLOCK_LENGTHS[3] = {1, 0, 2};
    for (size_t k = 0; k < COUNT * COUNT * COUNT * COUNT; k++) {
        drawn.length = 0;
        put_bytes(k % 16 == 0 ? "" : "%%MatrixMarket matrix array integer general\n");
        put_bytes(LINES[k % COUNT]);
        put_bytes(LINES[k / COUNT % COUNT]);
        put_bytes(LINES[k / COUNT / COUNT % COUNT]);
        put_bytes(LINES[k / COUNT / COUNT / COUNT]);
        try_by_hand(BLOCK_LENGTHS, k % 5 == 0 ? 3 : 1);
    }
}

/* The first line with each byte changed to each other one, dropped or doubled; and cut off anywhere. */
static void try_first_lines(void)
{
    static const size_t BLOCK_LENGTHS[1] = {1};
    enum { LENGTH = 43 };
    for (size_t k = 0; k < LENGTH * 258; k++) {
        size_t place = k % LENGTH;
        size_t what = k / LENGTH;
        drawn.length = 0;
        put_first_line();
        put_bytes("1 1\n5\n");
        if (what < 256) {
            drawn.bytes[place] = (uint8_t)what;
        } else if (what == 256) {
            drawn.length = place;
        } else {
            drawn.bytes[place] = drawn.bytes[place + 1];
        }
        try_by_hand(BLOCK_LENGTHS, 1);
    }
}

/* LENGTHS, of the block and of the sizes, with texts good and bad */

static void try_lengths(void)
{
    for (size_t k = 0; k < LENGTHS; k++) {
        size_t rows = draw_below(4);
        size_t columns = draw_below(4);
        draw_block(rows, columns);
        draw_text(true);
        if (k % 2 == 1) {
            damage_text();
        }
        size_t count = rows * columns;
        const size_t lengths[5] = {count, count + 1, count > 0 ? count - 1 : 3, 0, 2 * count};
        for (size_t n = 0; n < 25; n++) {
            Reading told = {lengths[n % 5], n / 5};
            try_read(drawn.bytes, drawn.length, told, n % PLACEMENTS);
        }
        by_hand++;
    }
}

/* WRITING */

/* What cannot be written, but for the last few. */
static double odd_entry(size_t k)
{
    static const uint64_t BITS[] = {0x3fe0000000000000, 0x4340000000000001, 0x7ff8000000000000, 0x7ff0000000000000, 0x7ff0000000000001,
        0x8000000000000000, 1, 0x7fefffffffffffff, 0x3ff8000000000000, 0x4330000000000001, 0x432fffffffffffff, 0x3fefffffffffffff,
        0x3ff0000000000001, 0x10000000000000, 0x43e0000000000000, 0x43f0000000000000, 0x4340000000000000, 0x433fffffffffffff, 0,
        0x3ff0000000000000};
    enum { COUNT = sizeof BITS / sizeof BITS[0] };
    uint64_t sign = (uint64_t)(k / COUNT % 2) << 63;
    return float_of(BITS[k % COUNT] ^ sign);
}

static size_t draw_too_large(void)
{
    static const size_t SIZES[] = {MOST + 1, MOST + 2, 2 * MOST, 65536, (size_t)1 << 32, ((size_t)1 << 32) + 1, (size_t)1 << 61,
        (size_t)1 << 63, (size_t)-1};
    return SIZES[draw_below(sizeof SIZES / sizeof SIZES[0])];
}

/* A set of faults: a size, the block's length, an entry, the text's length, the length of what says how much was written. */
enum { OF_SIZE = 1, OF_BLOCK = 2, OF_ENTRY = 4, OF_TEXT = 8, OF_WRITTEN = 16, SETS = 32 };

static void try_written(size_t faults, Placement placement)
{
    size_t rows = draw_size();
    size_t columns = draw_size();
    draw_block(rows, columns);
    size_t count = rows * columns;
    size_t length = length_of_text(rows, columns, drawn_block);
    Writing told = {rows, columns, count, length + (draw_below(2) == 0 ? 0 : draw_below(100)), 1};
    if ((faults & OF_SIZE) != 0) {
        size_t *size = draw_below(2) == 0 ? &told.rows : &told.columns;
        *size = draw_too_large();
    }
    if ((faults & OF_BLOCK) != 0) {
        told.block_length = draw_below(2) == 0 ? count + 1 + draw_below(3) : draw_below(count + 1);
    }
    for (size_t n = 1 + draw_below(2); (faults & OF_ENTRY) != 0 && count > 0 && n > 0; n--) {
        size_t place = draw_below(count);
        drawn_block[place] = odd_entry(draw_below(64));
    }
    if ((faults & OF_TEXT) != 0) {
        told.text_length = draw_below(2) == 0 ? length - 1 : draw_below(length);
    }
    if ((faults & OF_WRITTEN) != 0) {
        told.written_length = draw_below(2) == 0 ? 0 : 2 + draw_below(3);
    }
    try_write(drawn_block, told, placement);
}

static void try_written_blocks(void)
{
    for (size_t k = 0; k < WRITTEN_BLOCKS; k++) {
        try_written(k % SETS, k / SETS % PLACEMENTS);
    }
}

/* Each odd entry at each place of a small block, and floats of any bits. */
static void try_odd_entries(void)
{
    for (size_t k = 0; k < 40 * 6 + ANY_ENTRIES; k++) {
        double any = float_of(draw());
        draw_block(2, 3);
        drawn_block[k % 6] = k < 40 * 6 ? odd_entry(k / 6) : any;
        Writing told = {2, 3, 6, 200, 1};
        try_write(drawn_block, told, k % PLACEMENTS);
    }
}

/* Each length of the text about the right one, and far from it. */
static void try_text_lengths(void)
{
    for (size_t k = 0; k < LENGTHS; k++) {
        size_t rows = draw_below(4);
        size_t columns = draw_below(4);
        draw_block(rows, columns);
        size_t length = length_of_text(rows, columns, drawn_block);
        const size_t lengths[6] = {length, length - 1, length + 1, 0, 44, length + 1000};
        for (size_t n = 0; n < 18; n++) {
            Writing told = {rows, columns, rows * columns, lengths[n % 6], n / 6};
            try_write(drawn_block, told, n % PLACEMENTS);
        }
    }
}

/* THE PROGRAM */

static size_t sum(const size_t *list, size_t count)
{
    size_t total = 0;
    for (size_t k = 0; k < count; k++) {
        total += list[k];
    }
    return total;
}

/* Everything that is counted must have come, or the texts were not the right ones. */
static bool is_all_met(void)
{
    const size_t *s = tally.sizes, *r = tally.reads, *w = tally.writes;
    bool are = s[0] > 0 && s[7] > 0 && s[13] > 0 && s[14] > 0;
    are = are && r[0] > 0 && r[7] > 0 && r[13] > 0 && r[14] > 0 && r[15] > 0 && r[16] > 0;
    are = are && w[0] > 0 && w[7] > 0 && w[14] > 0 && w[15] > 0;
    for (size_t k = 0; k < DAMAGES; k++) {
        are = are && damages[k] > 0;
    }
    return are;
}

static void print_tally(void)
{
    const size_t *r = tally.reads, *w = tally.writes, *d = damages;
    printf("tests/exchange: %zu good texts, %zu damaged, %zu by hand; ", good, damaged, by_hand);
    printf("bytes changed: %zu, dropped: %zu, doubled: %zu, put in: %zu, lines exchanged: %zu, dropped: %zu, doubled: %zu, ", d[0], d[1],
        d[2], d[3], d[4], d[5], d[6]);
    printf("ends cut off: %zu; %zu reads, refused with 7: %zu, 13: %zu, 14: %zu, 15: %zu, 16: %zu; ", d[7], sum(r, NUMBERS), r[7], r[13],
        r[14], r[15], r[16]);
    printf("%zu asked for sizes; %zu writes, refused with 7: %zu, 14: %zu, 15: %zu; %zu round trips; ", sum(tally.sizes, NUMBERS),
        sum(w, NUMBERS), w[7], w[14], w[15], tally.round_trips);
}

int main(void)
{
    static const size_t ROOMS[BUFFERS] = {MOST_BYTES, (MOST * MOST + 8) * sizeof(double), 64, 64};
    make_areas(ROOMS);
    try_good_texts();
    try_large();
    try_size_lines();
    try_entries();
    try_lines();
    try_first_lines();
    try_lengths();
    try_written_blocks();
    try_odd_entries();
    try_text_lengths();
    try_damaged_texts();
    print_tally();
    if (tally.faults > 0 || !is_all_met()) {
        printf("%zu differences%s\n", tally.faults, is_all_met() ? "" : ", and not everything was met");
        return 1;
    }
    printf("all equal\n");
    return 0;
}
