/* Writes the files that tests/mend/run needs to standard output, by one of these words:
     bytes          the bytes that standard input has in hex
     mended         standard input, mended by the rule
     said           what the rule says of it
     right D        every right record of dimension D
     single D       every right record of dimension D, with each of its bytes made each other byte
     many COUNT     so many records, drawn: most right, some damaged in one or more bytes, some of noise */
#include "rule.h"

int getchar(void);
int putchar(int byte);
int puts(const char *line);
int strcmp(const char *left, const char *right);
unsigned long strtoul(const char *text, char **end, int base);

static void write_bytes(const uint8_t *bytes, size_t count)
{
    for (size_t at = 0; at < count; at++) {
        putchar(bytes[at]);
    }
}

static int from_hex(int letter)
{
    return letter <= '9' ? letter - '0' : letter - 'a' + 10;
}

static void write_hex(void)
{
    for (int high = getchar(); high > ' '; high = getchar()) {
        int low = getchar();
        putchar(16 * from_hex(high) + from_hex(low));
    }
}

/* Reads a record; answers how many bytes there were. */
static size_t read_record(uint8_t *record)
{
    size_t count = 0;
    for (int byte = 0; count < RECORD && (byte = getchar()) >= 0;) {
        record[count++] = (uint8_t)byte;
    }
    return count;
}

static void write_ruled(bool is_said)
{
    uint8_t record[RECORD], mended[RECORD];
    char line[32];
    size_t count = read_record(record);
    for (; count == RECORD; count = read_record(record)) {
        mend_record(record, mended);
        write_bytes(is_said ? (const uint8_t *)line : mended, is_said ? say_record(record, line) : RECORD);
    }
    if (is_said && count > 0) {
        char tail[] = "short 0";
        tail[6] = (char)('0' + count);
        puts(tail);
    }
}

/* A vector of the dimension by its number, the first axis slowest, as a right record. */
static void make_right(unsigned dimension, unsigned number, uint8_t *record)
{
    uint8_t raw[RECORD] = { (uint8_t)dimension };
    for (unsigned axis = dimension; axis-- > 0; number /= 7) {
        raw[1 + axis] = (uint8_t)((int)(number % 7) - 3);
    }
    mend_record(raw, record);
}

static unsigned count_vectors(unsigned dimension)
{
    return dimension == 1 ? 7 : dimension == 2 ? 49 : 343;
}

static void write_single(const uint8_t *right)
{
    uint8_t record[RECORD];
    for (size_t place = 0; place < RECORD; place++) {
        for (unsigned other = 1; other < 256; other++) {
            for (size_t at = 0; at < RECORD; at++) {
                record[at] = (uint8_t)(right[at] + (at == place ? other : 0));
            }
            write_bytes(record, RECORD);
        }
    }
}

static void write_all(unsigned dimension, bool is_damaged)
{
    uint8_t record[RECORD];
    for (unsigned number = 0; number < count_vectors(dimension); number++) {
        make_right(dimension, number, record);
        if (is_damaged) {
            write_single(record);
        } else {
            write_bytes(record, RECORD);
        }
    }
}

static uint64_t state = 24;

static unsigned draw(unsigned below)
{
    state = state * 6364136223846793005u + 1442695040888963407u;
    return (unsigned)((state >> 33) % below);
}

static void write_many(unsigned long count)
{
    uint8_t record[RECORD];
    for (; count > 0; count--) {
        unsigned dimension = 1 + draw(3);
        unsigned kind = draw(20);
        make_right(dimension, draw(count_vectors(dimension)), record);
        for (unsigned damages = kind < 2 ? 1 + draw(3) : kind == 2 ? RECORD : 0; damages > 0; damages--) {
            record[kind == 2 ? damages - 1 : draw(RECORD)] = (uint8_t)draw(256);
        }
        write_bytes(record, RECORD);
    }
}

int main(int count, char **arguments)
{
    const char *what = count > 1 ? arguments[1] : "";
    unsigned long number = count > 2 ? strtoul(arguments[2], 0, 10) : 0;
    if (strcmp(what, "bytes") == 0) {
        write_hex();
    } else if (strcmp(what, "mended") == 0 || strcmp(what, "said") == 0) {
        write_ruled(what[0] == 's');
    } else if (strcmp(what, "right") == 0 || strcmp(what, "single") == 0) {
        write_all((unsigned)number, what[0] == 's');
    } else if (strcmp(what, "many") == 0) {
        write_many(number);
    } else {
        return 1;
    }
    return 0;
}
