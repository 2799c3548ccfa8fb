/* Tries a block: `blocks [TOLERANCE] < FILE`. Reads a Matrix Market file (array, integer, general) from standard input, approximates its
   block by cross approximation in restart mode, and says what came of it. Ends with 0, or with 1 where the file or the tolerance is
   refused.

   It is also an example of how the library is called: what a call is lent stands in a struct, each buffer beside its length; how much to
   lend is asked first; and every answer is looked at. Memory comes from malloc, since the largest block needs more than a stack has. */
#include "bbfmm.h"

/* Of the C library, whose headers the kit has not. */
void *malloc(size_t bytes);
void *realloc(void *memory, size_t bytes);
void exit(int status);
int printf(const char *format, ...);
int dprintf(int file, const char *format, ...);
long read(int file, void *bytes, size_t count);
double strtod(const char *text, char **end);

enum { STANDARD_INPUT = 0, STANDARD_ERROR = 2 };

static const double USUAL_TOLERANCE = 1e-6;

/* MEMORY */

static void *or_give_up(void *memory)
{
    if (memory == 0) {
        dprintf(STANDARD_ERROR, "blocks: there is not enough memory\n");
        exit(1);
    }
    return memory;
}

/* Room for so many entries. It is never null, not even for none, as the calls want it. */
static void *room_for(size_t count, size_t entry_bytes)
{
    return or_give_up(malloc(count * entry_bytes + 1));
}

/* THE TEXT */

typedef struct {
    uint8_t *text;
    size_t text_length;
} File;

/* All of standard input. */
static File read_input(void)
{
    size_t room = 65536;
    File file = {room_for(room, 1), 0};
    for (;;) {
        if (file.text_length == room) {
            room *= 2;
            file.text = or_give_up(realloc(file.text, room));
        }
        long count = read(STANDARD_INPUT, file.text + file.text_length, room - file.text_length);
        if (count < 0) {
            dprintf(STANDARD_ERROR, "blocks: standard input cannot be read\n");
            exit(1);
        }
        if (count == 0) {
            return file;
        }
        file.text_length += (size_t)count;
    }
}

static size_t count_lines(File file)
{
    size_t lines = 0;
    for (size_t i = 0; i < file.text_length; i++) {
        bool is_last = i + 1 == file.text_length;
        lines += file.text[i] == '\n' || is_last;
    }
    return lines;
}

/* What is wrong with a line, in words. */
static const char *words_of(uint8_t number, bool is_missing)
{
    switch (number) {
    case BBFMM_NO_FIRST_LINE: return "the first line should be %%MatrixMarket matrix array integer general";
    case BBFMM_NO_SIZE: return "rows and columns should stand here, each 0 to 1,024";
    case BBFMM_BAD_ENTRY: return "an entry should stand here, a whole number of at most 2^53 in size";
    case BBFMM_WRONG_COUNT: return is_missing ? "an entry should stand here" : "all entries have come, and nothing may follow them";
    default: return "the library answers what it should not";
    }
}

/* Says why a file is refused, and ends the program. */
static void refuse(File file, uint64_t answer)
{
    uint8_t number = BBFMM_NUMBER(answer);
    size_t line = BBFMM_LINE(answer);
    bool is_missing = line > count_lines(file);
    printf("refused at line %zu%s: %s (%d)\n", line, is_missing ? ", which is missing" : "", words_of(number, is_missing), number);
    exit(1);
}

/* THE BLOCK */

typedef struct {
    size_t rows, columns;
    double *block;
    size_t block_length;
} Block;

/* First how large it is, so that the right memory can be lent; then the entries. */
static Block read_block(File file)
{
    size_t sizes[2];
    uint64_t answer = bbfmm_block_size(file.text, file.text_length, sizes, 2);
    if (answer != BBFMM_DONE) {
        refuse(file, answer);
    }
    size_t block_length = sizes[0] * sizes[1];
    double *block = room_for(block_length, sizeof *block);
    answer = bbfmm_read_block(file.text, file.text_length, block, block_length, sizes, 2);
    if (answer != BBFMM_DONE) {
        refuse(file, answer);
    }
    return (Block){sizes[0], sizes[1], block, block_length};
}

/* THE APPROXIMATION */

/* What the call is lent, and what it answers. */
typedef struct {
    double *u, *v;
    size_t u_length, v_length;
    uint16_t *row_list, *column_list;
    size_t row_list_length, column_list_length;
    double *row, *column;
    size_t row_length, column_length;
    size_t counts[3]; /* rank, why the run ended, how many rows were read */
    double numbers[2]; /* the estimate of the squared norm, the smallest pivot */
} Approximation;

/* The lengths are those of restart mode. */
static Approximation make_room(size_t rows, size_t columns)
{
    size_t lesser = rows < columns ? rows : columns;
    Approximation a = {0};
    a.u_length = rows * lesser;
    a.v_length = columns * lesser;
    a.row_list_length = rows;
    a.column_list_length = lesser;
    a.row_length = columns;
    a.column_length = rows;
    a.u = room_for(a.u_length, sizeof *a.u);
    a.v = room_for(a.v_length, sizeof *a.v);
    a.row_list = room_for(a.row_list_length, sizeof *a.row_list);
    a.column_list = room_for(a.column_list_length, sizeof *a.column_list);
    a.row = room_for(a.row_length, sizeof *a.row);
    a.column = room_for(a.column_length, sizeof *a.column);
    return a;
}

static Approximation approximate(Block b, double tolerance)
{
    const bool restart = true;
    Approximation a = make_room(b.rows, b.columns);
    uint8_t number = bbfmm_aca_partial_pivoting(
        b.rows, b.columns, b.block, b.block_length, tolerance, restart, a.u, a.u_length, a.v, a.v_length, a.row_list,
        a.row_list_length, a.column_list, a.column_list_length, a.row, a.row_length, a.column, a.column_length, a.counts, 3,
        a.numbers, 2);
    if (number != BBFMM_DONE) {
        dprintf(STANDARD_ERROR, "blocks: the cross approximation refuses with %d\n", number);
        exit(1);
    }
    return a;
}

/* One column of U times V transposed: for each row the sum of what each term says. */
static void add_terms(const Approximation *a, size_t rows, size_t columns, size_t j, double *sums)
{
    for (size_t i = 0; i < rows; i++) {
        sums[i] = 0;
    }
    for (size_t term = 0; term < a->counts[0]; term++) {
        double factor = a->v[j + term * columns];
        for (size_t i = 0; i < rows; i++) {
            sums[i] += a->u[i + term * rows] * factor;
        }
    }
}

/* How far U times V transposed is from the block where it is farthest. A NaN is farther than any number. */
static double largest_gap(Block b, const Approximation *a)
{
    double *sums = room_for(b.rows, sizeof *sums);
    double largest = 0;
    for (size_t j = 0; j < b.columns; j++) {
        add_terms(a, b.rows, b.columns, j, sums);
        for (size_t i = 0; i < b.rows; i++) {
            double difference = b.block[i + j * b.rows] - sums[i];
            double gap = difference < 0 ? -difference : difference;
            bool is_farther = !(gap <= largest);
            largest = is_farther && largest == largest ? gap : largest;
        }
    }
    return largest;
}

/* THE REPORT */

static const char *words_of_stop(size_t stop)
{
    switch (stop) {
    case BBFMM_STOP_TOLERABLE: return "the last term was small against the terms so far";
    case BBFMM_STOP_USED_UP: return "there are as many terms as the block has rows or columns";
    case BBFMM_STOP_ALL_TRIED: return "every row has been tried";
    default: return "the library answers what it should not";
    }
}

static void print_list(const char *what, const uint16_t *list, size_t count, size_t all)
{
    printf("%s read: %zu of %zu%s", what, count, all, count > 0 ? ":" : "");
    for (size_t k = 0; k < count; k++) {
        printf(" %d", list[k]);
    }
    printf("\n");
}

/* Rows and columns are counted from 0. */
static void print_report(Block b, const Approximation *a, double tolerance)
{
    size_t rank = a->counts[0];
    printf("tolerance: %g\n", tolerance);
    printf("rank: %zu\n", rank);
    printf("stopped since %s\n", words_of_stop(a->counts[1]));
    if (rank > 0) {
        printf("smallest pivot: %g\n", a->numbers[1]);
    }
    print_list("rows", a->row_list, a->counts[2], b.rows);
    print_list("columns", a->column_list, rank, b.columns);
    printf("largest gap between the block and its factors: %g\n", largest_gap(b, a));
}

/* THE PROGRAM */

static double tolerance_of(const char *text)
{
    char *end;
    double tolerance = strtod(text, &end);
    bool is_number = end != text && *end == 0;
    bool is_taken = is_number && tolerance >= 0 && tolerance - tolerance == 0;
    if (!is_taken) {
        const char *fault = is_number ? "not a finite number of 0 or more" : "no number";
        dprintf(STANDARD_ERROR, "blocks: the tolerance '%s' is %s\n", text, fault);
        exit(1);
    }
    return tolerance;
}

int main(int count, char **arguments)
{
    if (count > 2) {
        dprintf(STANDARD_ERROR, "blocks [TOLERANCE] < FILE\n");
        return 1;
    }
    double tolerance = count == 2 ? tolerance_of(arguments[1]) : USUAL_TOLERANCE;
    Block block = read_block(read_input());
    printf("rows: %zu\ncolumns: %zu\n", block.rows, block.columns);
    Approximation approximation = approximate(block, tolerance);
    print_report(block, &approximation, tolerance);
    return 0;
}
