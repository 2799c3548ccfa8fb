/* Reads the cases of one file from standard input, has each answered, and prints those whose answer differs: `cases FILE`. */
#include "cases.h"

int printf(const char *format, ...);
int getchar(void);
int strcmp(const char *left, const char *right);
void *memcpy(void *to, const void *from, size_t bytes);
void exit(int status);

/* How a case stands for any NaN. */
static const uint64_t NAN_BITS = 0x7ff8000000000000;

static Field fields[FIELDS];
static size_t field_count;
static char label[64];
static size_t cases;
static size_t faults;
static bool is_wrong;

/* READING: words, parted by spaces or the ends of lines */

/* Reads a word, and answers the byte after it; -1 at the end. */
static int read_word(char *word, size_t room)
{
    int byte = getchar();
    size_t length = 0;
    while (byte == ' ' || byte == '\n') {
        byte = getchar();
    }
    while (byte != ' ' && byte != '\n' && byte != -1) {
        if (length + 1 < room) {
            word[length++] = (char)byte;
        }
        byte = getchar();
    }
    word[length] = 0;
    return byte;
}

static uint64_t digits(const char *word, uint64_t base)
{
    bool is_negative = *word == '-';
    uint64_t n = 0;
    for (word += is_negative; *word != 0; word++) {
        n = n * base + (uint64_t)(*word <= '9' ? *word - '0' : *word - 'a' + 10);
    }
    return is_negative ? -n : n;
}

/* Bytes, two digits each, in so many words. */
static void read_bytes(Field *field, size_t words)
{
    static char word[2 * MOST + 1];
    field->count = 0;
    for (; words > 0; words--) {
        read_word(word, sizeof word);
        for (size_t i = 0; word[i] != 0 && word[i + 1] != 0 && field->count < MOST; i += 2) {
            const char pair[3] = {word[i], word[i + 1], 0};
            field->values[field->count++] = digits(pair, 16);
        }
    }
}

static void read_field(const char *side)
{
    static char word[64];
    Field *field = &fields[field_count++ % FIELDS];
    memcpy(field->side, side, 4);
    read_word(field->name, sizeof field->name);
    read_word(word, sizeof word);
    field->kind = word[0];
    read_word(word, sizeof word);
    field->count = digits(word, 10);
    if (field->kind == 'x') {
        read_bytes(field, field->count);
        return;
    }
    for (size_t i = 0; i < field->count; i++) {
        read_word(word, sizeof word);
        bool is_nan = strcmp(word, "nan") == 0;
        field->values[i % MOST] = is_nan ? NAN_BITS : digits(word, field->kind == 'f' ? 16 : 10);
    }
}

static const Field *find(const char *side, const char *name)
{
    for (size_t i = 0; i < field_count; i++) {
        if (strcmp(fields[i].side, side) == 0 && strcmp(fields[i].name, name) == 0) {
            return &fields[i];
        }
    }
    return 0;
}

/* WHAT A CALL IS GIVEN */

size_t number_at(const char *name, size_t place)
{
    const Field *field = find("in", name);
    if (field == 0 || place >= field->count) {
        printf("case %s has no %s\n", label, name);
        exit(1);
    }
    return field->values[place];
}

size_t number(const char *name)
{
    return number_at(name, 0);
}

size_t count_of(const char *name)
{
    const Field *field = find("in", name);
    return field == 0 ? 0 : field->count;
}

static double float_of(uint64_t bits)
{
    double x;
    memcpy(&x, &bits, sizeof x);
    return x;
}

double real(const char *name)
{
    return float_of(number(name));
}

size_t reals(const char *name, double *list, size_t room)
{
    const Field *field = find("in", name);
    size_t count = field == 0 ? 0 : field->count;
    for (size_t i = 0; i < count && i < room; i++) {
        list[i] = float_of(field->values[i]);
    }
    return count;
}

size_t bytes(const char *name, uint8_t *list, size_t room)
{
    const Field *field = find("in", name);
    size_t count = field == 0 ? 0 : field->count;
    for (size_t i = 0; i < count && i < room; i++) {
        list[i] = (uint8_t)field->values[i];
    }
    return count;
}

/* WHAT MUST COME OUT */

void hold(bool holds, const char *what)
{
    if (!holds && !is_wrong) {
        printf("case %s: %s differs\n", label, what);
    }
    is_wrong = is_wrong || !holds;
}

void hold_number(const char *name, size_t found)
{
    const Field *field = find("out", name);
    hold(field != 0 && field->count == 1 && field->values[0] == found, name);
}

void hold_numbers(const char *name, const size_t *list, size_t count)
{
    const Field *field = find("out", name);
    hold(field != 0 && field->count == count, name);
    for (size_t i = 0; !is_wrong && i < count; i++) {
        hold(field->values[i] == list[i], name);
    }
}

/* The bits of a float, any NaN's as a case has them. */
static uint64_t bits_of(double x)
{
    uint64_t bits;
    memcpy(&bits, &x, sizeof bits);
    return x == x ? bits : NAN_BITS;
}

bool are_alike(const double *left, const double *right, size_t count)
{
    for (size_t i = 0; i < count; i++) {
        if (bits_of(left[i]) != bits_of(right[i])) {
            return false;
        }
    }
    return true;
}

void hold_reals(const char *name, const double *list, size_t count)
{
    const Field *field = find("out", name);
    hold(field != 0 && field->count == count, name);
    for (size_t i = 0; !is_wrong && i < count; i++) {
        hold(bits_of(list[i]) == field->values[i], name);
    }
}

void hold_bytes(const char *name, const uint8_t *list, size_t count)
{
    const Field *field = find("out", name);
    hold(field != 0 && field->count == count, name);
    for (size_t i = 0; !is_wrong && i < count; i++) {
        hold(field->values[i] == list[i], name);
    }
}

void hold_checksum(const char *name, const double *list, size_t count)
{
    const Field *field = find("out", name);
    uint64_t sum = 0xcbf29ce484222325;
    for (size_t i = 0; i < count; i++) {
        uint64_t bits = bits_of(list[i]);
        for (size_t byte = 0; byte < sizeof bits; byte++) {
            sum = (sum ^ (bits >> 8 * byte & 0xff)) * 0x100000001b3;
        }
    }
    hold(field != 0 && field->count == sizeof sum, name);
    for (size_t i = 0; !is_wrong && i < sizeof sum; i++) {
        hold(field->values[i] == (sum >> 8 * (sizeof sum - 1 - i) & 0xff), name); /* The first digit is the highest. */
    }
}

/* THE PROGRAM */

static Answer *answer_of(const char *file)
{
    static const struct {
        const char *file;
        Answer *answer;
    } all[] = {
        {"e01_cell", answer_e01_cell},
        {"e02_node", answer_e02_node},
        {"e03_sqrt", answer_e03_sqrt},
        {"e03_sampler", answer_e03_sampler},
        {"e04_cross", answer_e04_cross},
        {"e05_ratio", answer_e05_ratio},
        {"e06_read", answer_e06_read},
        {"e06_write", answer_e06_write},
        {"e07_scale", answer_e07_scale},
        {"e07_reference", answer_e07_reference},
        {"e08_smallest", answer_e08_smallest},
        {"e09_outside", answer_e09_outside},
        {"e10_words", answer_e10_words},
        {"e11_nodes", answer_e11_nodes},
        {"e11_turn", answer_e11_turn},
        {"e13_polynomials", answer_e13_polynomials},
        {"e13_curvature", answer_e13_curvature},
    };
    for (size_t i = 0; i < sizeof all / sizeof all[0]; i++) {
        if (strcmp(all[i].file, file) == 0) {
            return all[i].answer;
        }
    }
    printf("%s: nobody answers it\n", file);
    exit(1);
    return 0;
}

/* Reads on to the end of a case. Lines that begin with # are passed over. */
static bool read_case(void)
{
    static char word[64];
    field_count = 0;
    for (;;) {
        int after = read_word(word, sizeof word);
        if (word[0] == 0) {
            return false;
        }
        if (word[0] == '#') {
            while (after != '\n' && after != -1) {
                after = getchar();
            }
        } else if (strcmp(word, "case") == 0) {
            read_word(label, sizeof label);
        } else if (strcmp(word, "in") == 0 || strcmp(word, "out") == 0) {
            read_field(word);
        } else if (strcmp(word, "end") == 0) {
            return true;
        }
    }
}

int main(int count, char **arguments)
{
    const char *file = count > 1 ? arguments[1] : "";
    Answer *answer = answer_of(file);
    while (read_case()) {
        is_wrong = false;
        answer();
        cases++;
        faults += is_wrong;
    }
    printf("%s: %zu cases, %zu with another answer\n", file, cases, faults);
    return faults > 0 || cases == 0;
}
