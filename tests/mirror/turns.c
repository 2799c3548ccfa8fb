/* The turn in floats, through the calls: draws far vectors, sides and nodes, and compares the sizes of differences of coordinates before
   and after the turn. With mirror-exact nodes all must be the same; with the Rust's it counts how many are not. `turns DRAWS` says what
   it saw, and `turns DRAWS table` prints the table of docs/DIFFERENCES.md. */
#include "../distances/draw.h"
#include "turned.h"

int printf(const char *format, ...);
int atoi(const char *word);

/* What was compared, of each set and order: differences, those that are not the same after the turn, and those that are not finite. */
typedef struct {
    size_t compared, differing, endless;
} Count;

static Turned turned;
static Count counts[2][17]; /* by set and order; at 0 all orders */

static int32_t draw_entry(void)
{
    return (int32_t)draw_below(7) - 3;
}

/* A vector with an entry of at least 2 in size, and zeros past the dimension. */
static void draw_vector(Given *given)
{
    bool is_far = false;
    while (!is_far) {
        for (size_t a = 0; a < 3; a++) {
            given->vector[a] = a < given->dimension ? draw_entry() : 0;
            is_far = is_far || given->vector[a] < -1 || given->vector[a] > 1;
        }
    }
}

/* From 2^-20 to 2^30: any digits, or a small whole number, or an end. */
static double draw_side(void)
{
    uint64_t kind = draw_below(8);
    if (kind == 0) {
        return (double)(1 + draw_below(1000));
    }
    if (kind == 1) {
        return draw_below(2) == 0 ? 0x1p-20 : 0x1p30;
    }
    return float_of((1023 - 20 + draw_below(50)) << 52 | draw() >> 12);
}

static bool is_finite(double x)
{
    return x - x == 0;
}

static void compare(size_t set, size_t source, size_t target)
{
    Count *count = &counts[set][turned.given.order];
    for (size_t m = 0; m < turned.given.dimension; m++) {
        double left = before(&turned, source, target, m);
        double right = after(&turned, source, target, m);
        count->compared++;
        count->differing += !is_same_size(left, right);
        count->endless += !is_finite(left) || !is_finite(right);
    }
}

/* One vector and one side, with the same nodes of the block in both sets. Answers whether the calls were done. */
static bool try_one(void)
{
    Given given = {.dimension = 1 + draw_below(3), .order = 1 + draw_below(16)};
    draw_vector(&given);
    given.side = draw_side();
    uint64_t source = draw(), target = draw();
    for (given.set = 0; given.set < 2; given.set++) {
        if (!make_turned(&turned, &given)) {
            return false;
        }
        compare(given.set, source % turned.count, target % turned.count);
    }
    return true;
}

/* The first two nodes, in one dimension, between which the Rust's do not keep the difference; order * order where there are none. */
static size_t first_differing(const Given *given)
{
    size_t order = given->order;
    size_t k = make_turned(&turned, given) ? 0 : order * order;
    while (k < order * order && is_same_size(before(&turned, k / order, k % order, 0), after(&turned, k / order, k % order, 0))) {
        k++;
    }
    return k;
}

/* Prints the smallest example of that, by rising order, entry's size and whole side, and answers whether there is one. */
static bool print_smallest(void)
{
    for (size_t k = 0; k < 16 * 2 * 64; k++) {
        int entry = -2 - (int)(k / 64 % 2);
        Given given = {1, 1 + k / 128, BBFMM_SET_RUST, (double)(1 + k % 64), {entry, 0, 0}};
        size_t order = given.order;
        size_t at = first_differing(&given);
        if (at < order * order) {
            printf("tests/mirror: smallest with set 0: order %zu, vector %d, side %g, nodes %zu and %zu: %.17g and %.17g\n", order, entry,
                given.side, at / order, at % order, before(&turned, at / order, at % order, 0), after(&turned, at / order, at % order, 0));
            return true;
        }
    }
    return false;
}

static void add_to(Count *all, const Count *part)
{
    all->compared += part->compared;
    all->differing += part->differing;
    all->endless += part->endless;
}

static void print_row(const char *name, const Count *rusts, const Count *exact)
{
    size_t thousandths = rusts->differing * 1000 / rusts->compared;
    printf("| %s | %zu | %zu | %zu.%zu %% | %zu |\n", name, rusts->compared, rusts->differing, thousandths / 10, thousandths % 10,
        exact->differing);
}

static void print_table(void)
{
    static const char *const names[17] = {"all", "1", "2", "3", "4", "5", "6", "7", "8", "9", "10", "11", "12", "13", "14", "15", "16"};
    printf("| order | differences | not kept with set 0 | of all | not kept with set 1 |\n|---|---|---|---|---|\n");
    for (size_t order = 1; order <= 16; order++) {
        print_row(names[order], &counts[0][order], &counts[1][order]);
    }
    print_row(names[0], &counts[0][0], &counts[1][0]);
}

int main(int count, char **words)
{
    int draws = count > 1 ? atoi(words[1]) : 0;
    for (int k = 0; k < draws; k++) {
        if (!try_one()) {
            printf("tests/mirror: a call refused what it should take\n");
            return 1;
        }
    }
    for (size_t order = 1; order <= 16; order++) {
        add_to(&counts[0][0], &counts[0][order]);
        add_to(&counts[1][0], &counts[1][order]);
    }
    const Count *rusts = &counts[0][0], *exact = &counts[1][0];
    if (count > 2) {
        print_table();
        return 0;
    }
    printf("tests/mirror: %d draws, %zu differences; not kept: %zu with set 0, %zu with set 1; not finite: %zu\n", draws, exact->compared,
        rusts->differing, exact->differing, rusts->endless + exact->endless);
    return !print_smallest() || exact->compared == 0 || exact->differing > 0 || exact->endless > 0;
}
