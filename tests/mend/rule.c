/* The rule of mending, from the documents: vectors, cases and references of 01, records of 02, words of 03. */
#include "rule.h"

/* A byte is a signed number. */
static int entry(uint8_t byte)
{
    return byte < 128 ? byte : byte - 256;
}

static int size_of(int number)
{
    return number < 0 ? -number : number;
}

/* The axes by falling size, ties by axis number. */
static void sort_axes(unsigned dimension, const int *vector, unsigned *axes)
{
    for (unsigned place = 0; place < dimension; place++) {
        axes[place] = place;
        for (unsigned at = place; at > 0 && size_of(vector[axes[at]]) > size_of(vector[axes[at - 1]]); at--) {
            unsigned axis = axes[at];
            axes[at] = axes[at - 1];
            axes[at - 1] = axis;
        }
    }
}

/* The number of an order of axes among all of them, lexicographically. */
static unsigned number_order(unsigned dimension, const unsigned *axes)
{
    unsigned number = 0;
    for (unsigned place = 0; place < dimension; place++) {
        unsigned smaller = 0;
        for (unsigned later = place + 1; later < dimension; later++) {
            smaller += axes[later] < axes[place];
        }
        number = number * (dimension - place) + smaller;
    }
    return number;
}

static unsigned number_case(unsigned dimension, const int *vector, const unsigned *axes)
{
    unsigned signs = 0;
    unsigned orders = 1;
    for (unsigned axis = 0; axis < dimension; axis++) {
        signs = 2 * signs + (vector[axis] < 0 ? 0 : 1);
        orders *= axis + 1;
    }
    return signs * orders + number_order(dimension, axes);
}

/* How many references come before the one with these sizes: entries 0 to 3, not rising, the first at least 2, the first axis slowest. */
static unsigned number_reference(unsigned dimension, const int *vector, const unsigned *axes)
{
    unsigned number = 0;
    for (int first = 2; first <= 3; first++) {
        for (int second = 0; second <= (dimension > 1 ? first : 0); second++) {
            for (int third = 0; third <= (dimension > 2 ? second : 0); third++) {
                int reference[3] = { first, second, third };
                bool is_same = true;
                for (unsigned place = 0; place < dimension; place++) {
                    is_same = is_same && reference[place] == size_of(vector[axes[place]]);
                }
                if (is_same) {
                    return number;
                }
                number++;
            }
        }
    }
    return 0; /* near: no reference has these sizes, and the number is 0 */
}

Found look_up(const uint8_t *record)
{
    Found found = { 0, 0, 0 };
    unsigned dimension = record[0];
    int vector[3] = { entry(record[1]), entry(record[2]), entry(record[3]) };
    if (dimension < 1 || dimension > 3) {
        found.number = 1;
        return found;
    }
    for (unsigned axis = 3; axis-- > 0;) {
        if (axis < dimension && size_of(vector[axis]) > 3) {
            found.number = 4;
        } else if (axis >= dimension && vector[axis] != 0 && found.number == 0) {
            found.number = 6;
        }
    }
    if (found.number == 0) {
        unsigned axes[3];
        sort_axes(dimension, vector, axes);
        found.turn_case = number_case(dimension, vector, axes);
        found.reference = number_reference(dimension, vector, axes);
    }
    return found;
}

void mend_record(const uint8_t *record, uint8_t *mended)
{
    Found found = look_up(record);
    for (size_t place = 0; place < RECORD; place++) {
        mended[place] = found.number == 0 && place < 4 ? record[place] : 0;
    }
    mended[4] = (uint8_t)found.turn_case;
    mended[5] = (uint8_t)found.reference;
}

static size_t put_word(char *line, size_t at, const char *word)
{
    while (*word != 0) {
        line[at++] = *word++;
    }
    return at;
}

static size_t put_digit(char *line, size_t at, unsigned digit)
{
    line[at] = ' ';
    line[at + 1] = (char)('0' + digit);
    return at + 2;
}

size_t say_record(const uint8_t *record, char *line)
{
    uint8_t mended[RECORD];
    Found found = look_up(record);
    size_t at;
    mend_record(record, mended);
    if (found.number != 0) {
        at = put_digit(line, put_word(line, 0, "blanked"), found.number);
        return put_word(line, at, "\n");
    }
    at = put_word(line, 0, "mended");
    for (unsigned place = 0; place < RECORD; place++) {
        if (record[place] != mended[place]) {
            at = put_digit(line, at, place);
        }
    }
    return at == 6 ? put_word(line, 0, "kept\n") : put_word(line, at, "\n");
}
