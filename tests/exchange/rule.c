/* The rule, a function an idea. A text is first taken apart into its lines; what a line is, is then asked of the line alone. */
#include "rule.h"

void *memcpy(void *to, const void *from, size_t bytes);
int memcmp(const void *left, const void *right, size_t bytes);
void exit(int status);
int printf(const char *format, ...);

enum { MOST = 1024, MOST_LINES = 1 << 21, MOST_BYTES = 1 << 25 };

static const uint64_t LARGEST_ENTRY = (uint64_t)1 << 53;

/* Some bytes of a text: a line, or a part of one. */
typedef struct {
    const uint8_t *bytes;
    size_t length;
} Part;

/* A refusal, or number 0, which is none. */
typedef struct {
    uint8_t number;
    uint64_t line;
} Fault;

static const Fault NONE = {BBFMM_DONE, 0};
static const Fault LENGTH = {BBFMM_WRONG_LENGTH, 0};

static uint64_t answer_of(Fault fault)
{
    return fault.number + 256 * fault.line;
}

/* LINES */

/* The lines of a text; line 1 is lines[0]. */
static Part lines[MOST_LINES];
static size_t line_count;

/* A line ends at byte 10, which is no part of it, or at the end of the text. Past the last byte no line begins. */
static void split(const uint8_t *text, size_t length)
{
    size_t begin = 0;
    line_count = 0;
    while (begin < length) {
        size_t end = begin;
        while (end < length && text[end] != 10) {
            end++;
        }
        if (line_count == MOST_LINES) {
            printf("tests/exchange: the rule has no room for so many lines\n");
            exit(1);
        }
        lines[line_count++] = (Part){text + begin, end - begin};
        begin = end + 1;
    }
}

/* Whether there is a line with this number, from 1. */
static bool has_line(uint64_t number)
{
    return number <= line_count;
}

static Part line_at(uint64_t number)
{
    return lines[number - 1];
}

/* WHOLE NUMBERS */

static bool is_digit(uint8_t byte)
{
    return byte >= '0' && byte <= '9';
}

/* One digit or more, and nothing else. */
static bool is_number(Part part)
{
    for (size_t i = 0; i < part.length; i++) {
        if (!is_digit(part.bytes[i])) {
            return false;
        }
    }
    return part.length > 0;
}

/* What a number is, or a number just above the largest, if it is above it. The largest is at most 2^53, so that nothing wraps. */
static uint64_t number_of(Part part, uint64_t largest)
{
    uint64_t number = 0;
    for (size_t i = 0; i < part.length && number <= largest; i++) {
        number = 10 * number + (uint64_t)(part.bytes[i] - '0');
    }
    return number <= largest ? number : largest + 1;
}

/* THE FIRST LINE */

static uint8_t in_lower_case(uint8_t byte)
{
    return byte >= 'A' && byte <= 'Z' ? (uint8_t)(byte - 'A' + 'a') : byte;
}

/* The banner as it stands, the words behind it in any case. */
static bool is_first_line(Part line)
{
    static const char FORM[] = "%%MatrixMarket matrix array integer general";
    enum { BANNER = sizeof "%%MatrixMarket" - 1, ALL = sizeof FORM - 1 };
    if (line.length != ALL) {
        return false;
    }
    for (size_t i = 0; i < ALL; i++) {
        uint8_t byte = i < BANNER ? line.bytes[i] : in_lower_case(line.bytes[i]);
        if (byte != (uint8_t)FORM[i]) {
            return false;
        }
    }
    return true;
}

/* THE SIZE LINE */

static bool is_blank(Part line)
{
    for (size_t i = 0; i < line.length; i++) {
        if (line.bytes[i] != ' ') {
            return false;
        }
    }
    return true;
}

static bool is_comment(Part line)
{
    return line.length > 0 && line.bytes[0] == '%';
}

/* The number of the first line past line 1 that is neither a comment nor blank, or of the line that would follow the last. */
static uint64_t size_line(void)
{
    uint64_t number = 2;
    while (has_line(number) && (is_comment(line_at(number)) || is_blank(line_at(number)))) {
        number++;
    }
    return number;
}

/* What stands before the first space of a line, or all of it; and what stands behind the last. */
static Part first_word(Part line)
{
    size_t length = 0;
    while (length < line.length && line.bytes[length] != ' ') {
        length++;
    }
    return (Part){line.bytes, length};
}

static Part last_word(Part line)
{
    size_t length = 0;
    while (length < line.length && line.bytes[line.length - length - 1] != ' ') {
        length++;
    }
    return (Part){line.bytes + line.length - length, length};
}

/* Two numbers of at most 1,024, with one space or more between them, and nothing else. */
static bool is_size_line(Part line)
{
    Part rows = first_word(line);
    Part columns = last_word(line);
    if (rows.length + columns.length >= line.length) {
        return false; /* No space at all. */
    }
    Part between = {line.bytes + rows.length, line.length - rows.length - columns.length};
    return is_blank(between) && is_number(rows) && is_number(columns) && number_of(rows, MOST) <= MOST && number_of(columns, MOST) <= MOST;
}

/* THE ENTRIES */

static bool is_negative(Part line)
{
    return line.length > 0 && line.bytes[0] == '-';
}

/* An entry without its sign. */
static Part digits_of(Part line)
{
    size_t sign = is_negative(line) ? 1 : 0;
    return (Part){line.bytes + sign, line.length - sign};
}

static bool is_entry(Part line)
{
    return is_number(digits_of(line)) && number_of(digits_of(line), LARGEST_ENTRY) <= LARGEST_ENTRY;
}

/* Every whole number up to 2^53 is a float. A 0 with a minus is +0.0. */
static double value_of(Part line)
{
    uint64_t size = number_of(digits_of(line), LARGEST_ENTRY);
    return is_negative(line) && size > 0 ? -(double)size : (double)size;
}

/* WHAT A TEXT IS */

/* Rows, columns, and the number of the size line. */
typedef struct {
    size_t rows, columns;
    uint64_t line;
} Size;

/* The fault of what comes up to the size line, or what that says. */
static Fault find_size(const uint8_t *text, size_t length, Size *size)
{
    split(text, length);
    if (!has_line(1) || !is_first_line(line_at(1))) {
        return (Fault){BBFMM_NO_FIRST_LINE, 1};
    }
    uint64_t number = size_line();
    if (!has_line(number) || !is_size_line(line_at(number))) {
        return (Fault){BBFMM_NO_SIZE, number};
    }
    size->rows = number_of(first_word(line_at(number)), MOST);
    size->columns = number_of(last_word(line_at(number)), MOST);
    size->line = number;
    return NONE;
}

/* The fault of the entries: of the first line that should be one and is not there, or is none; else of the line that follows them all,
   if there is one. */
static Fault find_bad_entry(Size size)
{
    uint64_t last = size.line + size.rows * size.columns;
    for (uint64_t number = size.line + 1; number <= last; number++) {
        if (!has_line(number)) {
            return (Fault){BBFMM_WRONG_COUNT, number};
        }
        if (!is_entry(line_at(number))) {
            return (Fault){BBFMM_BAD_ENTRY, number};
        }
    }
    return has_line(last + 1) ? (Fault){BBFMM_WRONG_COUNT, last + 1} : NONE;
}

/* THE CALLS THAT READ */

uint64_t rule_size(const uint8_t *text, size_t text_length, size_t *sizes, size_t sizes_length)
{
    Size size;
    Fault fault = find_size(text, text_length, &size);
    if (fault.number == BBFMM_DONE && sizes_length != 2) {
        fault = LENGTH;
    }
    if (fault.number == BBFMM_DONE) {
        sizes[0] = size.rows;
        sizes[1] = size.columns;
    }
    return answer_of(fault);
}

uint64_t rule_read(
    const uint8_t *text, size_t text_length, double *block, size_t block_length, size_t *sizes, size_t sizes_length)
{
    Size size;
    Fault fault = find_size(text, text_length, &size);
    if (fault.number == BBFMM_DONE) {
        fault = find_bad_entry(size);
    }
    if (fault.number == BBFMM_DONE && (block_length != size.rows * size.columns || sizes_length != 2)) {
        fault = LENGTH;
    }
    if (fault.number == BBFMM_DONE) {
        for (size_t k = 0; k < block_length; k++) {
            block[k] = value_of(line_at(size.line + 1 + k));
        }
        sizes[0] = size.rows;
        sizes[1] = size.columns;
    }
    return answer_of(fault);
}

/* THE CALL THAT WRITES, which first writes into memory of its own */

static uint8_t own[MOST_BYTES];
static size_t own_length;

static void put_byte(uint8_t byte)
{
    if (own_length == MOST_BYTES) {
        printf("tests/exchange: the rule has no room for so long a text\n");
        exit(1);
    }
    own[own_length++] = byte;
}

static void put_number(uint64_t number)
{
    if (number >= 10) {
        put_number(number / 10);
    }
    put_byte((uint8_t)('0' + number % 10));
}

static void put_first_line(void)
{
    static const char FIRST[] = "%%MatrixMarket matrix array integer general\n";
    for (size_t i = 0; i < sizeof FIRST - 1; i++) {
        put_byte((uint8_t)FIRST[i]);
    }
}

static void put_entry(double entry)
{
    if (entry < 0) {
        put_byte('-');
    }
    put_number((uint64_t)(entry < 0 ? -entry : entry));
    put_byte('\n');
}

static void put_text(size_t rows, size_t columns, const double *block)
{
    own_length = 0;
    put_first_line();
    put_number(rows);
    put_byte(' ');
    put_number(columns);
    put_byte('\n');
    for (size_t k = 0; k < rows * columns; k++) {
        put_entry(block[k]);
    }
}

static bool is_negative_zero(double x)
{
    const uint64_t sign = (uint64_t)1 << 63;
    return x == 0 && memcmp(&x, &sign, sizeof x) == 0;
}

/* Whole, at most 2^53 in size, and not -0.0. A NaN and the infinities fail the first question. */
static bool is_writable(double x)
{
    double largest = (double)LARGEST_ENTRY;
    if (!(x >= -largest && x <= largest)) {
        return false;
    }
    uint64_t size = (uint64_t)(x < 0 ? -x : x);
    return (double)size == (x < 0 ? -x : x) && !is_negative_zero(x);
}

/* The fault of rows, columns and block, in the order in which they are asked after. */
static Fault find_unwritable(size_t rows, size_t columns, const double *block, size_t block_length)
{
    if (rows > MOST || columns > MOST) {
        return (Fault){BBFMM_NO_SIZE, 2};
    }
    if (block_length != rows * columns) {
        return LENGTH;
    }
    for (size_t k = 0; k < block_length; k++) {
        if (!is_writable(block[k])) {
            return (Fault){BBFMM_BAD_ENTRY, 3 + k};
        }
    }
    return NONE;
}

uint64_t rule_write(
    size_t rows, size_t columns, const double *block, size_t block_length, uint8_t *text, size_t text_length, size_t *written,
    size_t written_length)
{
    Fault fault = find_unwritable(rows, columns, block, block_length);
    if (fault.number != BBFMM_DONE) {
        return answer_of(fault);
    }
    put_text(rows, columns, block);
    if (text_length < own_length || written_length != 1) {
        return answer_of(LENGTH);
    }
    memcpy(text, own, own_length);
    written[0] = own_length;
    return answer_of(NONE);
}
