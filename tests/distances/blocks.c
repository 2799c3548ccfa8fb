/* Holds bbfmm_sample_distances to the rule of documents 01 to 03, written anew: drawn blocks, each entry and each point by bits, any
   NaN being any NaN, and the entries past each buffer. Ends with 1 where something differs. */
#include "draw.h"

int printf(const char *format, ...);

/* The limits, how many entries are looked at past a buffer, and how many faults are printed. */
enum { AXES = 3, ORDERS = 16, MOST = 1024, PAST = 8, PRINTED = 10 };

typedef struct {
    size_t dimension, order, count; /* count: all nodes */
    double length;
    size_t reference;
} Shape;

static double nodes[ORDERS + PAST], lent[ORDERS + PAST];
static double sources[AXES * MOST + PAST], targets[AXES * MOST + PAST], block[MOST * MOST + PAST];
static double own_sources[AXES * MOST], own_targets[AXES * MOST];
static size_t calls, distances, faults;

/* What stands in a buffer before a call. */
static const uint64_t PATTERN = 0xa5a5a5a5a5a5a5a5;

/* THE RULE */

static size_t power(size_t base, size_t exponent)
{
    return exponent == 0 ? 1 : base * power(base, exponent - 1);
}

/* The reference vectors: entries 0 to 3, not rising, the first at least 2, the first axis slowest. Answers how many there are, and
   leaves the one with this number. */
static size_t find_reference(size_t dimension, size_t number, double *vector)
{
    size_t found = 0;
    for (size_t k = 0; k < power(4, dimension); k++) {
        size_t entries[AXES] = {0};
        bool is_reference = true;
        for (size_t a = 0; a < dimension; a++) {
            entries[a] = k / power(4, dimension - 1 - a) % 4;
            is_reference = is_reference && (a == 0 ? entries[a] >= 2 : entries[a] <= entries[a - 1]);
        }
        for (size_t a = 0; a < AXES && is_reference && found == number; a++) {
            vector[a] = (double)entries[a];
        }
        found += is_reference;
    }
    return found;
}

/* One row a node, the last axis fastest. */
static void place(Shape s)
{
    double vector[AXES] = {0};
    find_reference(s.dimension, s.reference, vector);
    for (size_t a = 0; a < s.dimension; a++) {
        for (size_t n = 0; n < s.count; n++) {
            double x = lent[n / power(s.order, s.dimension - 1 - a) % s.order];
            own_targets[n + a * s.count] = x * (0.5 * s.length);
            own_sources[n + a * s.count] = (vector[a] + x * 0.5) * s.length;
        }
    }
}

static double distance(Shape s, size_t source, size_t target)
{
    double sum = 0;
    for (size_t a = 0; a < s.dimension; a++) {
        double difference = own_sources[source + a * s.count] - own_targets[target + a * s.count];
        double square = difference * difference;
        sum = a == 0 ? square : sum + square;
    }
    return processor_root(sum);
}

/* HOLDING A CALL TO IT */

static void fault(Shape s, const char *what, size_t entry)
{
    if (faults++ < PRINTED) {
        printf("call %zu, dimension %zu, order %zu, reference %zu, length %a: %s %zu differs\n", calls, s.dimension, s.order,
            s.reference, s.length, what, entry);
    }
}

static void fill(double *buffer, size_t count)
{
    for (size_t i = 0; i < count + PAST; i++) {
        buffer[i] = float_of(PATTERN);
    }
}

static void hold_past(Shape s, const double *buffer, size_t count, const char *what)
{
    for (size_t i = count; i < count + PAST; i++) {
        if (bits_of(buffer[i]) != PATTERN) {
            fault(s, what, i);
        }
    }
}

static void hold_points(Shape s)
{
    for (size_t i = 0; i < s.count * s.dimension; i++) {
        if (!is_same(sources[i], own_sources[i])) {
            fault(s, "source", i);
        }
        if (!is_same(targets[i], own_targets[i])) {
            fault(s, "target", i);
        }
    }
}

static void hold_block(Shape s)
{
    for (size_t target = 0; target < s.count; target++) {
        for (size_t source = 0; source < s.count; source++) {
            size_t i = source + target * s.count;
            if (!is_same(block[i], distance(s, source, target))) {
                fault(s, "distance", i);
            }
        }
    }
    distances += s.count * s.count;
}

/* The nodes are in `lent`, and `nodes` is a copy, which the call must leave as it is, a NaN's bits too. */
static void try_call(Shape s)
{
    size_t points = s.count * s.dimension;
    size_t entries = s.count * s.count;
    fill(nodes, s.order);
    for (size_t i = 0; i < s.order; i++) {
        nodes[i] = lent[i];
    }
    fill(sources, points);
    fill(targets, points);
    fill(block, entries);
    uint8_t number = bbfmm_sample_distances(
        s.dimension, s.order, s.length, s.reference, nodes, s.order, sources, points, targets, points, block, entries);
    if (number != BBFMM_DONE) {
        fault(s, "the answer, which is the number", number);
    }
    for (size_t i = 0; i < s.order; i++) {
        if (bits_of(nodes[i]) != bits_of(lent[i])) {
            fault(s, "node", i);
        }
    }
    place(s);
    hold_points(s);
    hold_block(s);
    hold_past(s, nodes, s.order, "node");
    hold_past(s, sources, points, "source");
    hold_past(s, targets, points, "target");
    hold_past(s, block, entries, "distance");
    calls++;
}

/* DRAWING */

/* NaN, infinities, zeros, the ends of the ranges, what overflows when it is squared, what is lost beside an entry of the vector,
   and what is left of it. */
static double draw_special(void)
{
    static const uint64_t SIZES[12] = {
        0x7ff8000000000000, 0x7ff0000000000001, 0x7ff0000000000000, 0, 1, 0xfffffffffffff, 0x10000000000000, 0x7fefffffffffffff,
        0x5ff0000000000000, 0x3cb0000000000000, 0x3ff0000000000000, 0x4340000000000000};
    return float_of(SIZES[draw_below(12)] | draw_below(2) << 63);
}

static double draw_length(void)
{
    switch (draw_below(16)) {
    case 0: return 0x1p-20;
    case 1: return 0x1p30;
    case 2: return 1;
    default: return float_of(bits_of(0x1p-20) + draw_below(bits_of(0x1p30) - bits_of(0x1p-20)));
    }
}

/* Of four kinds: the Chebyshev nodes; from -1 to 1; any bits; special ones among others. */
enum { KINDS = 4 };
static void draw_nodes(size_t order, size_t kind)
{
    if (kind == 0) {
        bbfmm_generate_chebyshev_nodes(order, lent, order);
        return;
    }
    for (size_t i = 0; i < order; i++) {
        double inside = (double)(draw() >> 10) * 0x1p-53 - 1;
        bool is_special = kind == 3 && draw_below(2) == 0;
        lent[i] = is_special ? draw_special() : kind == 2 ? float_of(draw()) : inside;
    }
}

static void try_drawn(size_t dimension, size_t order, size_t kind)
{
    double vector[AXES];
    size_t references = find_reference(dimension, 0, vector);
    Shape s = {dimension, order, power(order, dimension), draw_length(), draw_below(references)};
    draw_nodes(order, kind);
    try_call(s);
}

/* Every shape that has not too many nodes, once; then many small ones; then the largest with every kind of nodes. */
int main(void)
{
    static const size_t SMALL[AXES + 1] = {0, 16, 8, 4};
    for (size_t dimension = 1; dimension <= AXES; dimension++) {
        for (size_t order = 1; order <= ORDERS && power(order, dimension) <= MOST; order++) {
            try_drawn(dimension, order, draw_below(KINDS));
        }
    }
    for (size_t k = 0; k < 3000; k++) {
        size_t dimension = 1 + draw_below(AXES);
        try_drawn(dimension, 1 + draw_below(SMALL[dimension]), draw_below(KINDS));
    }
    for (size_t kind = 0; kind < KINDS; kind++) {
        try_drawn(3, 10, kind);
    }
    printf("tests/distances: %zu blocks with %zu distances; ", calls, distances);
    if (faults > 0) {
        printf("%zu differences\n", faults);
        return 1;
    }
    printf("all equal\n");
    return 0;
}
