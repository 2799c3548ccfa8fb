/* Reference vectors and tables: records of a kind, a dimension, an order and a number. */
#include "replay.h"

typedef struct _IO_FILE FILE;
extern FILE *stdin;
size_t fread(void *place, size_t size, size_t count, FILE *file);

static void put_reference(size_t dimension, size_t number)
{
    int32_t vector[3];
    uint8_t refusal = bbfmm_reference_vector(dimension, number, vector, 3);
    printf("reference %zu %zu:", dimension, number);
    if (refusal == 0) {
        printf(" %d %d %d\n", vector[0], vector[1], vector[2]);
    } else {
        printf(" refused %u\n", refusal);
    }
}

/* The entries of a table, of more than 64 a polynomial in them, modulo the largest prime of 32 bits. */
static void put_entries(const uint16_t *table, size_t count)
{
    unsigned long h = 0;
    for (size_t i = 0; i < count; i++) {
        h = (h * 65599 + table[i] + 1) % 4294967291;
        if (count <= 64) {
            printf(" %u", table[i]);
        }
    }
    if (count > 64) {
        printf(" # %lu", h);
    }
}

static void put_table(bool is_inverse, size_t dimension, size_t order, size_t number)
{
    static uint16_t table[4096];
    size_t count = block(dimension, order);
    uint8_t refusal = is_inverse ? bbfmm_inverse_permutation(dimension, order, number, table, count)
                                 : bbfmm_combined_permutation(dimension, order, number, table, count);
    printf("%s %zu %zu %zu:", is_inverse ? "inverse" : "combined", dimension, order, number);
    if (refusal == 0) {
        put_entries(table, count);
    } else {
        printf(" refused %u", refusal);
    }
    printf("\n");
}

void replay_turn(void)
{
    uint8_t record[4];
    while (fread(record, 1, sizeof record, stdin) == sizeof record) {
        switch (record[0]) {
        case 0: put_reference(record[1], record[3]); break;
        case 1: put_table(false, record[1], record[2], record[3]); break;
        case 2: put_table(true, record[1], record[2], record[3]); break;
        default: printf("unknown kind %u\n", record[0]);
        }
    }
}
