/* Square roots and blocks of distances that are known by hand, the largest blocks, and every refusal. */
#include "check.h"

/* A block of 11 nodes an axis of three has too many nodes: 1,331. Room for it, so that its buffers can have their lengths, and for
   one entry more. */
enum { MOST = 11 * 11 * 11 };
static double sources[3 * MOST + 1];
static double targets[3 * MOST + 1];
static double block[MOST * MOST + 1];

static bool is_root(double x, double root)
{
    double found = bbfmm_square_root(x);
    return same(&found, &root, sizeof root);
}

static bool is_no_root(double x)
{
    double found = bbfmm_square_root(x);
    return found != found;
}

static void test_exact_roots(void)
{
    size_t differ = 0;
    for (size_t k = 0; k <= 4096; k++) {
        double root = (double)k;
        differ += !is_root(root * root, root) + !is_root(root * root * 0x1p-1000, root * 0x1p-500);
    }
    CHECK(differ == 0);
    /* The largest whole number whose square has 53 bits. */
    CHECK(is_root(9007199136250225, 94906265));
    /* The smallest float, the smallest normal one, and the largest. */
    CHECK(is_root(0x1p-1074, 0x1p-537));
    CHECK(is_root(0x1p-1022, 0x1p-511));
    CHECK(is_root(0x1.fffffffffffffp1023, 0x1.fffffffffffffp511));
    /* The neighbours of 1: the true roots are almost in the middle between two floats, and just below it. */
    CHECK(is_root(0x1.0000000000001p0, 1));
    CHECK(is_root(0x1.fffffffffffffp-1, 0x1.fffffffffffffp-1));
    CHECK(is_root(2, 1.41421356237309504880168872420969807857));
    CHECK(is_root(0.5, 0.70710678118654752440084436210484903928));
    CHECK(is_root(3, 1.73205080756887729352744634150587236694));
}

static void test_special_roots(void)
{
    const double none = 0;
    const double infinite = 1 / none;
    CHECK(is_root(0, 0));
    CHECK(is_root(-none, -none));
    CHECK(is_root(infinite, infinite));
    CHECK(is_no_root(-infinite));
    CHECK(is_no_root(none / none));
    CHECK(is_no_root(-(none / none)));
    CHECK(is_no_root(-1));
    CHECK(is_no_root(-0x1p-1074));
    CHECK(is_no_root(-0x1.fffffffffffffp1023));
}

/* Calls with the buffers that a block of this shape has, and looks whether nothing past them was written. */
static uint8_t sampled(size_t dimension, size_t order, double length, size_t reference, const double *nodes)
{
    size_t count = order * (dimension > 1 ? order : 1) * (dimension > 2 ? order : 1);
    FILL(sources);
    FILL(targets);
    FILL(block);
    uint8_t number = bbfmm_sample_distances(
        dimension, order, length, reference, nodes, order, sources, count * dimension, targets, count * dimension, block,
        count * count);
    CHECK(kept(sources + count * dimension, sizeof sources - count * dimension * sizeof(double)));
    CHECK(kept(targets + count * dimension, sizeof targets - count * dimension * sizeof(double)));
    CHECK(kept(block + count * count, sizeof block - count * count * sizeof(double)));
    return number;
}

/* The first entries of a buffer. */
#define BEGINS(buffer, ...) same((buffer), (__VA_ARGS__), sizeof(__VA_ARGS__))

/* The second reference vector of the line is (3). The first node of the source lies before the last of the target: a distance has
   no sign. */
static void test_line(void)
{
    CHECK(sampled(1, 2, 1, 1, (double[]){-8, 8}) == BBFMM_DONE);
    CHECK(BEGINS(sources, (double[]){-1, 7}));
    CHECK(BEGINS(targets, (double[]){-4, 4}));
    CHECK(BEGINS(block, (double[]){3, 11, 5, 3}));
}

/* The first reference vector of the plane is (2, 0). With 3 between two nodes, sides of 4 and 3 come up, and of 7 and 1 with 3. */
static void test_plane(void)
{
    const double of_58 = 7.6157731058639082856614110271588230053;
    const double of_10 = 3.1622776601683793319988935444327185337;
    CHECK(sampled(2, 2, 2, 0, (double[]){-1.5, 1.5}) == BBFMM_DONE);
    CHECK(BEGINS(sources, (double[]){2.5, 2.5, 5.5, 5.5, -1.5, 1.5, -1.5, 1.5}));
    CHECK(BEGINS(targets, (double[]){-1.5, -1.5, 1.5, 1.5, -1.5, 1.5, -1.5, 1.5}));
    CHECK(BEGINS(block, (double[]){4, 5, 7, of_58, 5, 4, of_58, 7, 1, of_10, 4, 5, of_10, 1, 5, 4}));
}

/* Reference vector 4 of space is (2, 2, 1), which is 3 long. */
static void test_space(void)
{
    CHECK(sampled(3, 1, 4, 4, (double[]){0.5}) == BBFMM_DONE);
    CHECK(BEGINS(sources, (double[]){9, 9, 5}));
    CHECK(BEGINS(targets, (double[]){1, 1, 1}));
    CHECK(BEGINS(block, (double[]){12}));
    CHECK(sampled(3, 1, 0x1p-20, 4, (double[]){0}) == BBFMM_DONE && BEGINS(block, (double[]){0x3p-20}));
    CHECK(sampled(3, 1, 0x1p30, 4, (double[]){0}) == BBFMM_DONE && BEGINS(block, (double[]){0x3p30}));
}

/* Nodes may be any floats. A square that overflows is not mended by the root, in one dimension neither. */
static void test_any_nodes(void)
{
    const double none = 0;
    const double infinite = 1 / none;
    CHECK(sampled(1, 2, 1, 0, (double[]){-1e200, 1e200}) == BBFMM_DONE);
    CHECK(BEGINS(block, (double[]){0, infinite, infinite, 0}));
    CHECK(sampled(1, 1, 1, 0, (double[]){none / none}) == BBFMM_DONE && block[0] != block[0]);
    CHECK(sampled(1, 2, 1, 0, (double[]){-infinite, infinite}) == BBFMM_DONE);
    CHECK(block[0] != block[0] && block[1] == infinite && block[2] == infinite && block[3] != block[3]);
}

/* The largest blocks of each dimension. With all nodes in the middle, every distance is that of the blocks. */
static void test_largest(void)
{
    const double middle[16] = {0};
    const struct {
        size_t dimension, order, reference;
        double distance;
    } largest[3] = {{1, 16, 1, 3}, {2, 16, 0, 2}, {3, 10, 4, 3}};
    for (size_t k = 0; k < 3; k++) {
        size_t count = 1;
        size_t differ = 0;
        for (size_t a = 0; a < largest[k].dimension; a++) {
            count *= largest[k].order;
        }
        CHECK(sampled(largest[k].dimension, largest[k].order, 1, largest[k].reference, middle) == BBFMM_DONE);
        for (size_t i = 0; i < count * count; i++) {
            differ += block[i] != largest[k].distance;
        }
        CHECK(differ == 0);
    }
}

/* What a call is told, beside its nodes. */
typedef struct {
    size_t dimension, order;
    double length;
    size_t reference;
    size_t lengths[4]; /* of nodes, sources, targets and block */
} Told;

static const Told RIGHT = {2, 2, 4, 6, {2, 8, 8, 16}};
static const double NODES[16] = {-0.5, 0.5};

static uint8_t told(Told what)
{
    return bbfmm_sample_distances(
        what.dimension, what.order, what.length, what.reference, NODES, what.lengths[0], sources, what.lengths[1], targets,
        what.lengths[2], block, what.lengths[3]);
}

static uint8_t told_shape(size_t dimension, size_t order)
{
    Told what = RIGHT;
    what.dimension = dimension;
    what.order = order;
    return told(what);
}

/* Each fault alone, of which 3 needs a block whose buffers all have their lengths. */
static void test_each_fault(void)
{
    const double none = 0;
    const double lengths[7] = {0x1.fffffffffffffp-21, 0x1.0000000000001p30, 0, -4, none / none, 1 / none, -1 / none};
    const Told crowd = {3, 11, 4, 15, {11, 3 * MOST, 3 * MOST, MOST * MOST}};
    Told what = RIGHT;
    CHECK(told_shape(0, 2) == BBFMM_NO_DIMENSION);
    CHECK(told_shape(4, 2) == BBFMM_NO_DIMENSION);
    CHECK(told_shape((size_t)-1, 2) == BBFMM_NO_DIMENSION);
    CHECK(told_shape(2, 0) == BBFMM_NO_ORDER);
    CHECK(told_shape(2, 17) == BBFMM_NO_ORDER);
    CHECK(told_shape(2, (size_t)-1) == BBFMM_NO_ORDER);
    CHECK(told(crowd) == BBFMM_NO_COUNT);
    CHECK(told_shape(3, 16) == BBFMM_NO_COUNT);
    what.reference = 7;
    CHECK(told(what) == BBFMM_NO_CASE);
    what.reference = (size_t)-1;
    CHECK(told(what) == BBFMM_NO_CASE);
    what.reference = RIGHT.reference;
    for (size_t k = 0; k < 7; k++) {
        what.length = lengths[k];
        CHECK(told(what) == BBFMM_NO_CELL);
    }
}

/* Each buffer one entry short, one long, and empty. */
static void test_lengths(void)
{
    for (size_t i = 0; i < 4; i++) {
        const size_t wrong[3] = {RIGHT.lengths[i] - 1, RIGHT.lengths[i] + 1, 0};
        for (size_t k = 0; k < 3; k++) {
            Told what = RIGHT;
            what.lengths[i] = wrong[k];
            CHECK(told(what) == BBFMM_WRONG_LENGTH);
        }
    }
}

/* Any of these faults together, each buffer in turn the one that is short: the lowest number is told. */
static uint8_t told_faults(size_t faults, size_t buffer)
{
    Told what = {3, 2, 4, 15, {2, 24, 24, 64}};
    if ((faults & 4) != 0) {
        what = (Told){3, 11, 4, 15, {11, 3 * MOST, 3 * MOST, MOST * MOST}};
    }
    what.dimension = (faults & 1) != 0 ? 4 : what.dimension;
    what.order = (faults & 2) != 0 ? 17 : what.order;
    what.reference = (faults & 8) != 0 ? 16 : what.reference;
    what.lengths[buffer] -= (faults & 16) != 0;
    what.length = (faults & 32) != 0 ? 0 : what.length;
    return told(what);
}

static void test_many_faults(void)
{
    static const uint8_t NUMBERS[6] = {
        BBFMM_NO_DIMENSION, BBFMM_NO_ORDER, BBFMM_NO_COUNT, BBFMM_NO_CASE, BBFMM_WRONG_LENGTH, BBFMM_NO_CELL};
    for (size_t faults = 1; faults < 64; faults++) {
        size_t lowest = 0;
        while ((faults >> lowest & 1) == 0) {
            lowest++;
        }
        for (size_t buffer = 0; buffer < 4; buffer++) {
            CHECK(told_faults(faults, buffer) == NUMBERS[lowest]);
        }
    }
}

static void test_refusals(void)
{
    FILL(sources);
    FILL(targets);
    FILL(block);
    test_each_fault();
    test_lengths();
    test_many_faults();
    CHECK(KEPT(sources) && KEPT(targets) && KEPT(block));
    CHECK(HOLDS(NODES, (double[16]){-0.5, 0.5}));
    /* What the faults were put into has none itself. */
    CHECK(told(RIGHT) == BBFMM_DONE);
    CHECK(told_faults(0, 0) == BBFMM_DONE);
}

void test_distances(void)
{
    test_exact_roots();
    test_special_roots();
    test_line();
    test_plane();
    test_space();
    test_any_nodes();
    test_largest();
    test_refusals();
}
