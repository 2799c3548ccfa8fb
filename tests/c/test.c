/* Runs the tests of all calls, and says how many held. */
#include "check.h"

/* Of the C library, whose headers the kit has not. */
int printf(const char *format, ...);

static const unsigned char PATTERN = 0xa5;
static int passed;
static int failed;

void check(bool holds, const char *file, int line, const char *what)
{
    if (holds) {
        passed++;
        return;
    }
    failed++;
    printf("%s:%d: failed: %s\n", file, line, what);
}

void fill(void *buffer, size_t bytes)
{
    unsigned char *byte = (unsigned char *)buffer;
    for (size_t i = 0; i < bytes; i++) {
        byte[i] = PATTERN;
    }
}

bool kept(const void *buffer, size_t bytes)
{
    const unsigned char *byte = (const unsigned char *)buffer;
    for (size_t i = 0; i < bytes; i++) {
        if (byte[i] != PATTERN) {
            return false;
        }
    }
    return true;
}

bool same(const void *left, const void *right, size_t bytes)
{
    const unsigned char *l = (const unsigned char *)left;
    const unsigned char *r = (const unsigned char *)right;
    for (size_t i = 0; i < bytes; i++) {
        if (l[i] != r[i]) {
            return false;
        }
    }
    return true;
}

int main(void)
{
    test_turn();
    test_chebyshev();
    test_transfer();
    test_points();
    test_distances();
    test_coefficients();
    test_curvature();
    test_ratios();
    test_exchange();
    test_choices();
    test_aca();
    printf("C: %d passed, %d failed\n", passed, failed);
    return failed == 0 ? 0 : 1;
}
