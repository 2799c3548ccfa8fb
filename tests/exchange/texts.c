/* Draws texts, and damages them. No expression draws twice, so that every compiler draws the same. */
#include "texts.h"
#include "../distances/draw.h"

void *memcpy(void *to, const void *from, size_t bytes);
void *memmove(void *to, const void *from, size_t bytes);

/* As long as the first line with its newline. */
enum { FIRST_LENGTH = 44 };

Text drawn;
double drawn_block[1024 * 1024];
size_t drawn_rows, drawn_columns;
size_t damages[DAMAGES];

/* BLOCKS */

static double draw_entry(void)
{
    uint64_t any = draw();
    uint64_t size = any >> (11 + draw_below(53));
    switch (draw_below(16)) {
    case 0: size = (uint64_t)1 << 53; break;
    case 1: size = ((uint64_t)1 << 53) - 1; break;
    case 2: size = 0; break;
    default: break;
    }
    bool is_negative = draw_below(2) == 0 && size > 0;
    return is_negative ? -(double)size : (double)size;
}

void draw_block(size_t rows, size_t columns)
{
    drawn_rows = rows;
    drawn_columns = columns;
    for (size_t k = 0; k < rows * columns; k++) {
        drawn_block[k] = draw_entry();
    }
}

/* GOOD TEXTS */

static void put(uint8_t byte)
{
    if (drawn.length < TEXT_ROOM) {
        drawn.bytes[drawn.length++] = byte;
    }
}

void put_bytes(const char *bytes)
{
    for (; *bytes != 0; bytes++) {
        put((uint8_t)*bytes);
    }
}

void put_first_line(void)
{
    put_bytes("%%MatrixMarket matrix array integer general\n");
}

static void put_times(uint8_t byte, size_t times)
{
    for (; times > 0; times--) {
        put(byte);
    }
}

static void put_decimal(uint64_t number)
{
    uint8_t digits[20];
    size_t count = 0;
    do {
        digits[count++] = (uint8_t)('0' + number % 10);
        number /= 10;
    } while (number > 0);
    for (; count > 0; count--) {
        put(digits[count - 1]);
    }
}

/* Mostly none, sometimes a few, now and then very many. */
static size_t draw_times(bool is_plain)
{
    size_t kind = draw_below(is_plain ? 64 : 8);
    size_t few = 1 + draw_below(4);
    return kind > 1 ? 0 : kind == 1 || is_plain ? few : 40 * few * few;
}

/* The first line, with capitals anywhere in the four words, or everywhere. */
static void put_drawn_first_line(bool is_plain)
{
    size_t kind = draw_below(is_plain ? 8 : 3);
    put_first_line();
    for (size_t i = sizeof "%%MatrixMarket" - 1; i < FIRST_LENGTH && kind < 2; i++) {
        uint8_t *byte = &drawn.bytes[i];
        bool is_capital = kind == 0 || draw_below(2) == 0;
        *byte = is_capital && *byte >= 'a' ? (uint8_t)(*byte - 'a' + 'A') : *byte;
    }
}

/* A comment has any bytes but the newline. */
static void put_comment(bool is_plain)
{
    put('%');
    for (size_t k = draw_times(is_plain) + draw_below(4); k > 0; k--) {
        uint8_t byte = (uint8_t)draw();
        put(byte == 10 ? '%' : byte);
    }
    put(10);
}

static void put_passed_over(bool is_plain)
{
    for (size_t k = draw_below(is_plain ? 2 : 5); k > 0; k--) {
        if (draw_below(2) == 0) {
            put_comment(is_plain);
        } else {
            put_times(' ', draw_times(is_plain));
            put(10);
        }
    }
}

static void put_drawn_entry(double entry, bool is_plain)
{
    bool has_minus = entry < 0 || (entry == 0 && draw_below(4) == 0);
    if (has_minus) {
        put('-');
    }
    put_times('0', draw_times(is_plain));
    put_decimal((uint64_t)(entry < 0 ? -entry : entry));
    put(10);
}

void draw_text(bool is_plain)
{
    drawn.length = 0;
    put_drawn_first_line(is_plain);
    put_passed_over(is_plain);
    put_times('0', draw_times(is_plain));
    put_decimal(drawn_rows);
    put_times(' ', 1 + draw_times(is_plain));
    put_times('0', draw_times(is_plain));
    put_decimal(drawn_columns);
    put(10);
    for (size_t k = 0; k < drawn_rows * drawn_columns; k++) {
        put_drawn_entry(drawn_block[k], is_plain);
    }
    drawn.length -= draw_below(3) == 0;
}

/* DAMAGE TO BYTES */

/* Puts so many bytes in, or takes so many out, at a place. Some bytes lie at `from`. */
static void replace(size_t place, size_t taken, const uint8_t *from, size_t count)
{
    static uint8_t copy[TEXT_ROOM];
    size_t behind = drawn.length - place - taken;
    if (place + count + behind > TEXT_ROOM) {
        return;
    }
    memcpy(copy, from, count);
    memmove(drawn.bytes + place + count, drawn.bytes + place + taken, behind);
    memcpy(drawn.bytes + place, copy, count);
    drawn.length = place + count + behind;
}

/* A place in the text; mostly past the first line, where more can happen. The text is not empty. */
static size_t draw_place(void)
{
    bool is_anywhere = draw_below(8) == 0 || drawn.length <= FIRST_LENGTH;
    return is_anywhere ? draw_below(drawn.length) : FIRST_LENGTH + draw_below(drawn.length - FIRST_LENGTH);
}

/* A byte that means something in a text or in other formats, or any. */
static uint8_t draw_byte(void)
{
    static const char BYTES[] = "0123456789--  \n\n%+.,\t\r\v\f/:eEinIGx_";
    uint8_t any = (uint8_t)draw();
    return draw_below(4) == 0 ? any : (uint8_t)BYTES[any % (sizeof BYTES)];
}

/* DAMAGE TO LINES */

typedef struct {
    size_t begin, length; /* with the newline, if it has one */
} Line;

/* The line about a place. */
static Line line_about(size_t place)
{
    size_t begin = place;
    size_t end = place;
    while (begin > 0 && drawn.bytes[begin - 1] != 10) {
        begin--;
    }
    while (end < drawn.length && drawn.bytes[end] != 10) {
        end++;
    }
    end += end < drawn.length;
    return (Line){begin, end - begin};
}

/* Exchanges two lines with what stands between them, each with its own end. */
static void exchange_lines(Line a, Line b)
{
    static uint8_t copy[TEXT_ROOM];
    Line first = a.begin < b.begin ? a : b;
    Line second = a.begin < b.begin ? b : a;
    if (first.begin == second.begin) {
        return;
    }
    size_t between = second.begin - first.begin - first.length;
    uint8_t *at = copy;
    memcpy(at, drawn.bytes + second.begin, second.length);
    at += second.length;
    memcpy(at, drawn.bytes + first.begin + first.length, between);
    at += between;
    memcpy(at, drawn.bytes + first.begin, first.length);
    memcpy(drawn.bytes + first.begin, copy, second.length + between + first.length);
}

void damage_text(void)
{
    if (drawn.length == 0) {
        return;
    }
    size_t kind = draw_below(DAMAGES);
    size_t place = draw_place();
    Line line = line_about(place);
    Line other = line_about(draw_place());
    uint8_t byte = draw_byte();
    damages[kind]++;
    switch (kind) {
    case 0: drawn.bytes[place] = byte; break;
    case 1: replace(place, 1, 0, 0); break;
    case 2: replace(place, 0, drawn.bytes + place, 1); break;
    case 3: replace(place, 0, &byte, 1); break;
    case 4: exchange_lines(line, other); break;
    case 5: replace(line.begin, line.length, 0, 0); break;
    case 6: replace(line.begin, 0, drawn.bytes + line.begin, line.length); break;
    default: drawn.length = place; break;
    }
}
