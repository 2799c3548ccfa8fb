/* Matrix Market texts. Reading goes over the entries twice, first to see that all are right, then to store them; writing first adds up
   how long the text will be. So nothing is written before all is known. */
#include "plain.h"

void *memcpy(void *to, const void *from, size_t bytes);
int memcmp(const void *left, const void *right, size_t bytes);

enum { MOST = 1024 };

static const uint64_t LARGEST = (uint64_t)1 << 53;

static const char FIRST[] = "%%MatrixMarket matrix array integer general\n";
enum { BANNER = sizeof "%%MatrixMarket" - 1, FIRST_LENGTH = sizeof FIRST - 1 };

static uint64_t refusal(uint8_t number, uint64_t line)
{
    return number + 256 * line;
}

/* READING */

/* Where a text is read, to where it goes, and the number of the line that is read. */
typedef struct {
    const uint8_t *at, *end;
    uint64_t line;
} Cursor;

/* Whether a line ends here. If it does, the next one is read. */
static inline bool end_line(Cursor *text)
{
    if (text->at < text->end && *text->at != '\n') {
        return false;
    }
    text->at += text->at < text->end;
    text->line++;
    return true;
}

static bool read_first_line(Cursor *text)
{
    size_t length = FIRST_LENGTH - 1;
    if ((size_t)(text->end - text->at) < length || memcmp(text->at, FIRST, BANNER) != 0) {
        return false;
    }
    for (size_t i = BANNER; i < length; i++) {
        uint8_t byte = text->at[i];
        byte |= byte >= 'A' && byte <= 'Z' ? 0x20 : 0;
        if (byte != (uint8_t)FIRST[i]) {
            return false;
        }
    }
    text->at += length;
    return end_line(text);
}

/* Passes over comments and blank lines. */
static void pass_over(Cursor *text)
{
    while (text->at < text->end) {
        const uint8_t *p = text->at;
        bool is_comment = *p == '%';
        while (p < text->end && *p != '\n' && (is_comment || *p == ' ')) {
            p++;
        }
        if (p < text->end && *p != '\n') {
            return;
        }
        text->at = p;
        end_line(text);
    }
}

/* Reads digits, and answers what they say, or a number just above the largest. Where there is none, that too. Up to 18 digits fit into
   a word, zeros before them apart. */
static inline uint64_t read_digits(Cursor *text, uint64_t largest)
{
    const uint8_t *p = text->at;
    while (p < text->end && *p == '0') {
        p++;
    }
    const uint8_t *digits = p;
    uint64_t number = 0;
    for (; p < text->end && (uint8_t)(*p - '0') < 10; p++) {
        number = 10 * number + (uint8_t)(*p - '0');
    }
    bool is_taken = p > text->at && p - digits <= 18 && number <= largest;
    text->at = p;
    return is_taken ? number : largest + 1;
}

static bool read_size(Cursor *text, size_t *sizes)
{
    sizes[0] = read_digits(text, MOST);
    const uint8_t *gap = text->at;
    while (text->at < text->end && *text->at == ' ') {
        text->at++;
    }
    bool is_parted = text->at > gap;
    sizes[1] = read_digits(text, MOST);
    return is_parted && sizes[0] <= MOST && sizes[1] <= MOST && end_line(text);
}

/* The refusal of the first lines, or 0 and the sizes. */
static uint64_t read_head(Cursor *text, size_t *sizes)
{
    if (!read_first_line(text)) {
        return refusal(BBFMM_NO_FIRST_LINE, 1);
    }
    pass_over(text);
    uint64_t line = text->line;
    return read_size(text, sizes) ? 0 : refusal(BBFMM_NO_SIZE, line);
}

static inline bool read_entry(Cursor *text, double *entry)
{
    bool is_negative = *text->at == '-';
    text->at += is_negative;
    uint64_t size = read_digits(text, LARGEST);
    *entry = is_negative && size > 0 ? -(double)size : (double)size;
    return size <= LARGEST && end_line(text);
}

/* The refusal of the entries, or 0. They are stored where there is a block to store them in. */
static inline uint64_t read_entries(Cursor text, size_t count, double *restrict block)
{
    for (size_t k = 0; k < count; k++) {
        double entry;
        if (text.at == text.end) {
            return refusal(BBFMM_WRONG_COUNT, text.line);
        }
        uint64_t line = text.line;
        if (!read_entry(&text, &entry)) {
            return refusal(BBFMM_BAD_ENTRY, line);
        }
        if (block != 0) {
            block[k] = entry;
        }
    }
    return text.at == text.end ? 0 : refusal(BBFMM_WRONG_COUNT, text.line);
}

uint64_t plain_block_size(const uint8_t *restrict text, size_t text_length, size_t *restrict sizes, size_t sizes_length)
{
    Cursor cursor = {text, text + text_length, 1};
    size_t found[2];
    uint64_t answer = read_head(&cursor, found);
    if (answer != 0) {
        return answer;
    }
    if (sizes_length != 2) {
        return BBFMM_WRONG_LENGTH;
    }
    memcpy(sizes, found, sizeof found);
    return BBFMM_DONE;
}

uint64_t plain_read_block(
    const uint8_t *restrict text, size_t text_length, double *restrict block, size_t block_length, size_t *restrict sizes,
    size_t sizes_length)
{
    Cursor cursor = {text, text + text_length, 1};
    size_t found[2];
    uint64_t answer = read_head(&cursor, found);
    if (answer != 0) {
        return answer;
    }
    size_t count = found[0] * found[1];
    answer = read_entries(cursor, count, 0);
    if (answer != 0) {
        return answer;
    }
    if (block_length != count || sizes_length != 2) {
        return BBFMM_WRONG_LENGTH;
    }
    read_entries(cursor, count, block);
    memcpy(sizes, found, sizeof found);
    return BBFMM_DONE;
}

/* WRITING */

static inline size_t digits_of(uint64_t number)
{
    size_t digits = 1;
    for (uint64_t next = 10; number >= next; next *= 10) {
        digits++;
    }
    return digits;
}

/* Whole, at most 2^53 in size, and not -0.0. */
static inline bool is_writable(double x)
{
    uint64_t bits;
    memcpy(&bits, &x, sizeof bits);
    return x >= -0x1p53 && x <= 0x1p53 && (double)(long long)x == x && bits != (uint64_t)1 << 63;
}

static inline uint64_t size_of(double x)
{
    return (uint64_t)(x < 0 ? -x : x);
}

static inline uint8_t *put_number(uint8_t *at, uint64_t number, uint8_t after)
{
    size_t digits = digits_of(number);
    for (size_t i = digits; i > 0; i--) {
        at[i - 1] = (uint8_t)('0' + number % 10);
        number /= 10;
    }
    at[digits] = after;
    return at + digits + 1;
}

/* How long the text is; or 0, and the place of the first entry that cannot be written. */
static size_t measure(size_t rows, size_t columns, const double *restrict block, size_t *place)
{
    size_t length = FIRST_LENGTH + digits_of(rows) + 1 + digits_of(columns) + 1;
    for (size_t k = 0; k < rows * columns; k++) {
        if (!is_writable(block[k])) {
            *place = k;
            return 0;
        }
        length += (block[k] < 0) + digits_of(size_of(block[k])) + 1;
    }
    return length;
}

uint64_t plain_write_block(
    size_t rows, size_t columns, const double *restrict block, size_t block_length, uint8_t *restrict text, size_t text_length,
    size_t *restrict written, size_t written_length)
{
    if (rows > MOST || columns > MOST) {
        return refusal(BBFMM_NO_SIZE, 2);
    }
    if (block_length != rows * columns) {
        return BBFMM_WRONG_LENGTH;
    }
    size_t place;
    size_t length = measure(rows, columns, block, &place);
    if (length == 0) {
        return refusal(BBFMM_BAD_ENTRY, 3 + place);
    }
    if (text_length < length || written_length != 1) {
        return BBFMM_WRONG_LENGTH;
    }
    memcpy(text, FIRST, FIRST_LENGTH);
    uint8_t *at = put_number(text + FIRST_LENGTH, rows, ' ');
    at = put_number(at, columns, '\n');
    for (size_t k = 0; k < block_length; k++) {
        *at = '-';
        at = put_number(at + (block[k] < 0), size_of(block[k]), '\n');
    }
    written[0] = length;
    return BBFMM_DONE;
}
