/* The walk itself, the values about the limits, and the program. Ends with 1 if a number was wrong or memory was changed. */
#include "walk.h"

int printf(const char *format, ...);
int memcmp(const void *left, const void *right, size_t bytes);
void *memcpy(void *to, const void *from, size_t bytes);

enum { HIGHEST = 17 };

static size_t faults;

static void fill(Buffer *buffer, size_t count)
{
    for (size_t i = 0; i < count; i++) {
        memcpy((char *)buffer->place + i * buffer->size, buffer->pattern, buffer->size);
    }
}

/* The first entries hold the pattern: the first of them does, and each equals the next. */
bool is_kept(const Buffer *buffer, size_t count)
{
    const char *place = buffer->place;
    if (count == 0) {
        return true;
    }
    return memcmp(place, buffer->pattern, buffer->size) == 0 && memcmp(place, place + buffer->size, (count - 1) * buffer->size) == 0;
}

static bool are_kept(Buffer *const *lent, size_t count)
{
    for (size_t i = 0; i < count; i++) {
        if (!is_kept(lent[i], lesser(lent[i]->room, lent[i]->length + 2))) {
            return false;
        }
    }
    return true;
}

/* Past what is lent nothing may change, whatever the call answers. */
static bool are_rests_kept(Buffer *const *lent, size_t count)
{
    for (size_t i = 0; i < count; i++) {
        Buffer rest = *lent[i];
        size_t past = lesser(2, rest.room - rest.length);
        rest.place = (char *)rest.place + rest.length * rest.size;
        if (!is_kept(&rest, past)) {
            return false;
        }
    }
    return true;
}

void walk(const char *name, size_t calls, Call *call, Buffer *const *lent, size_t count)
{
    size_t numbers[HIGHEST + 1] = {0};
    size_t wrong = 0;
    size_t changed = 0;
    for (size_t i = 0; i < count; i++) {
        fill(lent[i], lent[i]->room);
    }
    for (size_t k = 0; k < calls; k++) {
        Outcome outcome = call(k);
        bool is_refused = outcome.number != 0;
        wrong += outcome.number != outcome.expected;
        changed += outcome.is_changed || !(is_refused ? are_kept(lent, count) : are_rests_kept(lent, count));
        numbers[lesser(outcome.number, HIGHEST)]++;
        for (size_t i = 0; i < count && !is_refused; i++) {
            fill(lent[i], lent[i]->length);
        }
    }
    for (size_t i = 0; i < count; i++) {
        changed += !is_kept(lent[i], lent[i]->room);
    }
    printf("%s: %zu calls", name, calls);
    const char *mark = ";";
    for (size_t n = 0; n <= HIGHEST; n++) {
        if (numbers[n] > 0) {
            printf("%s %zu: %zu", mark, n, numbers[n]);
            mark = ",";
        }
    }
    printf("; wrong %zu; changed %zu\n", wrong, changed);
    faults += wrong + changed;
}

size_t take(size_t *k, size_t n)
{
    size_t digit = *k % n;
    *k /= n;
    return digit;
}

bool lend(Buffer *buffer, size_t exact, size_t digit)
{
    size_t n = exact < 65536 ? exact : 65536;
    size_t wanted[4] = {n, n > 0 ? n - 1 : 0, n + 1, 0};
    buffer->length = lesser(buffer->room, wanted[digit]);
    return buffer->length == exact;
}

void put_odd(const Odd *odd)
{
    if (odd->place != 0) {
        *odd->place = odd->x;
    }
}

bool take_odd(const Odd *odd, bool must_stay)
{
    if (odd->place == 0) {
        return false;
    }
    bool is_changed = must_stay && memcmp(odd->place, &odd->x, sizeof odd->x) != 0;
    *odd->place = 7;
    return is_changed;
}

size_t product(size_t a, size_t b)
{
    if (a == (size_t)-1 && b == (size_t)-1) {
        return 1;
    }
    return lesser(65536, lesser(65536, a) * lesser(65536, b));
}

size_t power(size_t dimension, size_t order)
{
    switch (dimension) {
    case 1: return order;
    case 2: return product(order, order);
    case 3: return product(product(order, order), order);
    default: return 1;
    }
}

size_t lesser(size_t a, size_t b)
{
    return a < b ? a : b;
}

double beside(double x, bool is_larger)
{
    uint64_t bits;
    memcpy(&bits, &x, sizeof bits);
    bits += is_larger ? 1 : (uint64_t)-1;
    memcpy(&x, &bits, sizeof x);
    return x;
}

double infinite(void)
{
    const double none = 0;
    return 1 / none;
}

double not_a_number(void)
{
    return infinite() - infinite();
}

bool is_finite(double x)
{
    return x - x == 0;
}

size_t dimension_at(size_t k)
{
    return (size_t[]){0, 1, 2, 3, 4, (size_t)-1}[k];
}

size_t order_at(size_t k)
{
    return (size_t[]){0, 1, 3, 16, 17, (size_t)-1}[k];
}

size_t rows_at(size_t k)
{
    return (size_t[]){0, 1, 3, 4096, 4097, (size_t)-1}[k];
}

size_t number_at(size_t k)
{
    return (size_t[]){0, 1, 2, 6, 7, 15, 16, (size_t)-1}[k];
}

/* 2^-20, the next float below, 1, 2^30, the next float above, infinity, less than 0, and a NaN. */
double side_at(size_t k)
{
    double none = 0;
    return (double[]){0x1p-20, 0x1.fffffffffffffp-21, 1, 0x1p30, 0x1.0000000000001p30, 1 / none, -1, none / none}[k];
}

bool is_side(size_t k)
{
    return k == 0 || k == 2 || k == 3;
}

double coordinate_at(size_t k, double half)
{
    double sign = k % 2 == 0 ? 1 : -1;
    double border = 7 + sign * half * (1 + 0x1p-20);
    switch (k / 2) {
    case 0: return border;
    case 1: return beside(border, true);
    case 2: return beside(border, false);
    case 3: return 7 + sign * half;
    case 4: return sign * 0x1.fffffffffffffp1023;
    case 5: return sign * 0x1p-1074;
    case 6: return sign * 0;
    case 7: return sign * 0x1p1000;
    case 8: return sign * 7;
    case 9: return sign * infinite();
    default: return sign * not_a_number();
    }
}

uint8_t unless(bool holds, uint8_t number)
{
    return holds ? 0 : number;
}

uint8_t first(uint8_t a, uint8_t b)
{
    return a != 0 ? a : b;
}

uint8_t of_order(size_t order)
{
    return unless(1 <= order && order <= 16, BBFMM_NO_ORDER);
}

uint8_t of_shape(size_t dimension, size_t order)
{
    return first(unless(1 <= dimension && dimension <= 3, BBFMM_NO_DIMENSION), of_order(order));
}

uint8_t of_reference(size_t dimension, size_t reference)
{
    if (dimension < 1 || dimension > 3) {
        return BBFMM_NO_DIMENSION;
    }
    return unless(reference < (size_t[]){0, 2, 7, 16}[dimension], BBFMM_NO_CASE);
}

int main(void)
{
    walk_turn();
    walk_chebyshev();
    walk_transfer();
    walk_points();
    walk_distances();
    walk_scaling();
    walk_coefficients();
    walk_curvature();
    walk_ratios();
    walk_exchange();
    walk_choices();
    walk_aca();
    return faults == 0 ? 0 : 1;
}
