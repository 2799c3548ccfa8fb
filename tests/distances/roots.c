/* Holds bbfmm_square_root to the processor's own, bit by bit, any NaN being any NaN. Since the processor may be an emulator's, each
   root of a finite number above 0 is also held to what it means, by squares of whole numbers. Ends with 1 where one is wrong. */
#include "draw.h"

int printf(const char *format, ...);

/* Whole numbers of 128 bits, which no standard header of C99 names. */
__extension__ typedef unsigned __int128 Wide;
__extension__ typedef __int128 SignedWide;

/* How many wrong roots are printed. */
enum { PRINTED = 10 };

/* 2^52: the least significand of a normal float, and what one more in its exponent adds to its bits. */
static const uint64_t LEAST = 0x10000000000000;
static const uint64_t SIGN = 0x8000000000000000;
static const uint64_t INFINITE = 0x7ff0000000000000;

static size_t tried;
static size_t wrong;

/* Takes a finite float above 0 apart: it is significand * 2^exponent, and the significand has 53 bits, also of a subnormal. */
static uint64_t significand_of(uint64_t bits, int *exponent)
{
    uint64_t field = bits / LEAST;
    uint64_t significand = bits % LEAST + (field > 0 ? LEAST : 0);
    *exponent = (int)(field > 0 ? field : 1) - 1075;
    while (significand < LEAST) {
        significand *= 2;
        *exponent -= 1;
    }
    return significand;
}

/* Whether of all floats this root is the one nearest to the true root of x: x lies between the squares of the middles between the
   root and its two neighbours. All is counted in quarters of the root's last place, since below a power of two floats are twice as
   close. A middle's square is never a float of 53 bits, so that no tie is left to break. */
static bool is_nearest(uint64_t x, uint64_t root)
{
    int of_x, of_root;
    if (root == 0 || root >= INFINITE) {
        return false;
    }
    uint64_t significand = significand_of(x, &of_x);
    uint64_t quarters = 4 * significand_of(root, &of_root);
    int shift = of_x - 2 * of_root;
    if (shift < 0 || shift > 64) {
        return false;
    }
    Wide square = (Wide)significand * 16 << shift;
    Wide below = quarters - (quarters == 4 * LEAST ? 1 : 2);
    Wide above = quarters + 2;
    return below * below < square && square < above * above;
}

static void try(uint64_t bits)
{
    double x = float_of(bits);
    double root = bbfmm_square_root(x);
    double expected = processor_root(x);
    bool has_size = 0 < bits && bits < INFINITE;
    tried++;
    if (is_same(root, expected) && (!has_size || is_nearest(bits, bits_of(root)))) {
        return;
    }
    if (wrong++ < PRINTED) {
        printf("root of %016llx: %016llx, and the processor's %016llx\n", (unsigned long long)bits,
            (unsigned long long)bits_of(root), (unsigned long long)bits_of(expected));
    }
}

/* A float with its two neighbours. */
static void try_about(uint64_t bits)
{
    try(bits - 1);
    try(bits);
    try(bits + 1);
}

/* THE KINDS: each tries some inputs for its k-th draw */

static void any_bits(size_t k)
{
    (void)k;
    try(draw());
}

/* From 1 to 4 every significand comes with either parity of the exponent. */
static void one_to_four(size_t k)
{
    (void)k;
    try(bits_of(1) + draw_below(2 * LEAST));
}

/* With any number of leading zeros; one in eight is below 0. */
static void subnormals(size_t k)
{
    (void)k;
    uint64_t size = draw() >> (12 + draw_below(52));
    try(draw_below(8) == 0 ? SIGN + size : size);
}

static void subnormal_squares(size_t k)
{
    (void)k;
    uint64_t root = 1 + draw_below((1 << 26) - 1);
    try_about(root * root);
}

/* The square of a whole number with at most so many bits, rounded to a float where it has more than 53. */
static void square(unsigned bits)
{
    uint64_t root = 1 + draw_below(((uint64_t)1 << bits) - 1);
    try_about(bits_of((double)(root * root)));
}

static void squares_to_2_27(size_t k)
{
    (void)k;
    square(27);
}

static void squares_to_2_32(size_t k)
{
    (void)k;
    square(32);
}

/* Every power of two, subnormal ones first, and infinity; two neighbours on either side, and all of these below 0. */
enum { POWERS = 52 + 2047 };
static void powers(size_t k)
{
    uint64_t bits = k < 52 ? (uint64_t)1 << k : (k - 51) * LEAST;
    for (uint64_t i = 0; i < 5; i++) {
        try(bits + i - 2);
        try((bits + i - 2) ^ SIGN);
    }
}

/* By how many bits the square of the middle is too long, for a middle that is a whole number of 54 bits. */
static unsigned excess_of(uint64_t middle)
{
    return (Wide)middle * middle >> 107 == 0 ? 54 : 55;
}

/* A significand of 53 bits with an exponent like `excess`, even or odd, so that it has the root that is meant. */
static uint64_t scaled(uint64_t significand, unsigned excess)
{
    uint64_t field = excess - 53 + 2 * draw_below(1023);
    return (field - 1) * LEAST + significand;
}

/* The two floats about the square of the middle between two floats: 2q + 1 halves, q any whole number of 53 bits. */
static void halfway(size_t k)
{
    (void)k;
    uint64_t middle = 2 * (LEAST + draw_below(LEAST)) + 1;
    unsigned excess = excess_of(middle);
    uint64_t below = (uint64_t)((Wide)middle * middle >> excess);
    uint64_t bits = scaled(below, excess);
    try(bits);
    try(bits + 1);
}

/* A whole number whose square is `rest`, which is 1 modulo 8, modulo 2^bits. It is found bit by bit: where the square is wrong in
   bit i, bit i - 1 of the number mends it. */
static uint64_t root_modulo(uint64_t rest, unsigned bits)
{
    uint64_t root = 1;
    for (unsigned i = 3; i < bits; i++) {
        root += ((root * root - rest) >> i & 1) << (i - 1);
    }
    return root;
}

/* The nearest that a float can come to the square of a middle: their difference is `rest`, where the whole square has 107 or 108
   bits. */
enum { NEAREST = 800000 };
static void nearest_to_halfway(size_t k)
{
    SignedWide rest = 1 + 8 * ((SignedWide)k - NEAREST / 2);
    for (unsigned excess = 54; excess <= 55; excess++) {
        uint64_t all = ((uint64_t)1 << excess) - 1;
        uint64_t root = root_modulo((uint64_t)rest, excess);
        uint64_t half = (all + 1) / 2;
        const uint64_t middles[4] = {root, -root & all, (root + half) & all, (half - root) & all};
        for (size_t i = 0; i < 4; i++) {
            /* Of the four roots those with 54 bits and this excess are middles. */
            if (middles[i] / LEAST >= 2 && middles[i] / LEAST < 4 && excess_of(middles[i]) == excess) {
                Wide nearest = (Wide)middles[i] * middles[i] - (Wide)rest;
                try(scaled((uint64_t)(nearest >> excess), excess));
            }
        }
    }
}

/* Zeros, infinities, NaN that signal and that do not, and the ends of the ranges, with both signs. */
static const uint64_t SPECIAL[10] = {
    0, 1, 0xfffffffffffff, 0x10000000000000, 0x7fefffffffffffff, 0x7ff0000000000000, 0x7ff0000000000001, 0x7ff7ffffffffffff,
    0x7ff8000000000000, 0x7fffffffffffffff};
static void special(size_t k)
{
    try(SPECIAL[k / 2] ^ (k % 2 == 0 ? 0 : SIGN));
}

int main(void)
{
    static const struct {
        const char *name;
        size_t draws;
        void (*draw)(size_t k);
    } kinds[] = {
        {"any bits", 4000000, any_bits},
        {"from 1 to 4", 1000000, one_to_four},
        {"subnormal", 1000000, subnormals},
        {"subnormal squares", 300000, subnormal_squares},
        {"squares to 2^27", 400000, squares_to_2_27},
        {"squares to 2^32", 400000, squares_to_2_32},
        {"powers of two", POWERS, powers},
        {"halfway", 900000, halfway},
        {"nearest to halfway", NEAREST, nearest_to_halfway},
        {"special", 2 * sizeof SPECIAL / sizeof SPECIAL[0], special},
    };
    size_t before[sizeof kinds / sizeof kinds[0] + 1] = {0};
    for (size_t i = 0; i < sizeof kinds / sizeof kinds[0]; i++) {
        for (size_t k = 0; k < kinds[i].draws; k++) {
            kinds[i].draw(k);
        }
        before[i + 1] = tried;
    }
    printf("tests/distances: %zu roots", tried);
    for (size_t i = 0; i < sizeof kinds / sizeof kinds[0]; i++) {
        printf("%s %zu %s", i == 0 ? ":" : ",", before[i + 1] - before[i], kinds[i].name);
    }
    if (wrong > 0) {
        printf("; %zu wrong\n", wrong);
        return 1;
    }
    printf("; all equal\n");
    return 0;
}
