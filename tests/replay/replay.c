/* The program: `replay turn` takes records of four bytes, `replay floats` cases of floats. */
#include "replay.h"

typedef struct _IO_FILE FILE;
extern FILE *stdin;
size_t fread(void *place, size_t size, size_t count, FILE *file);
int strcmp(const char *left, const char *right);
void *memcpy(void *to, const void *from, size_t bytes);
void exit(int status);

void read_bytes(void *place, size_t bytes)
{
    if (fread(place, 1, bytes, stdin) != bytes) {
        printf("short\n");
        exit(1);
    }
}

void read_floats(double *list, size_t count)
{
    read_bytes(list, count * sizeof *list);
}

size_t up_to(size_t most, size_t count)
{
    return count <= most ? count : 0;
}

size_t square(size_t order)
{
    return up_to(16, order) * up_to(16, order);
}

size_t block(size_t dimension, size_t order)
{
    switch (dimension) {
    case 1: return up_to(16, order);
    case 2: return square(order);
    case 3: return square(order) * up_to(16, order);
    default: return 0;
    }
}

static unsigned long bits_of(double x)
{
    unsigned long bits;
    memcpy(&bits, &x, sizeof bits);
    return x == x ? bits : 0x7ff8000000000000;
}

void put_float(double x)
{
    if (x == x) {
        printf(" %016lx", bits_of(x));
    } else {
        printf(" nan");
    }
}

/* A polynomial in the halves of the bits, upper half first, modulo the largest prime of 32 bits. */
static unsigned long checksum(const double *list, size_t count)
{
    unsigned long h = 0;
    for (size_t i = 0; i < count; i++) {
        unsigned long bits = bits_of(list[i]);
        h = (h * 65599 + (bits >> 32) + 1) % 4294967291;
        h = (h * 65599 + (bits & 0xffffffff) + 1) % 4294967291;
    }
    return h;
}

void put_floats(const double *list, size_t count)
{
    if (count > 32) {
        printf(" # %lu", checksum(list, count));
        return;
    }
    for (size_t i = 0; i < count; i++) {
        put_float(list[i]);
    }
}

void put_answer(uint8_t refusal, const double *list, size_t count)
{
    if (refusal == 0) {
        put_floats(list, count);
    } else {
        printf(" refused %u", refusal);
    }
}

static void replay_case(Case c)
{
    switch (c.kind) {
    case 1: case 2: replay_chebyshev(c); break;
    case 3: case 4: replay_transfer(c); break;
    case 5: case 6: replay_points(c); break;
    case 7: replay_coefficients(c); break;
    case 8: case 9: replay_choices(c); break;
    case 10: replay_aca(c); break;
    case 11: replay_ratios(c); break;
    case 12: replay_reference(c); break;
    case 13: case 14: replay_curvature(c); break;
    default: printf("unknown kind %u\n", c.kind);
    }
}

int main(int count, char **words)
{
    if (count == 2 && strcmp(words[1], "turn") == 0) {
        replay_turn();
        return 0;
    }
    uint8_t header[8];
    while (fread(header, 1, sizeof header, stdin) == sizeof header) {
        size_t rows = header[4] | (size_t)header[5] << 8 | (size_t)header[6] << 16 | (size_t)header[7] << 24;
        replay_case((Case){header[0], header[1], header[2], header[3] % 2 == 1, rows});
    }
    return 0;
}
