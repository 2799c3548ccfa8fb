/* Cases that were written down for the requests by someone who has not seen the code: what goes into a call, and what must come out. */
#ifndef CASES_H
#define CASES_H

#include "bbfmm.h"

enum { FIELDS = 32, MOST = 4096 };

/* A field: its name, its kind (u and i for whole numbers, f for floats, x for bytes, as those of a checksum), and its values, of which
   floats stand as bits. */
typedef struct {
    char side[4]; /* in or out */
    char name[28];
    char kind;
    size_t count;
    uint64_t values[MOST];
} Field;

/* What a call is given, by name. A field that is not there ends the program. */
size_t number(const char *name);
size_t number_at(const char *name, size_t place);
double real(const char *name);
/* The floats of a field, and how many they are. */
size_t reals(const char *name, double *list, size_t room);

/* The bytes of a field, and how many they are. */
size_t bytes(const char *name, uint8_t *list, size_t room);

/* How many values a field has. */
size_t count_of(const char *name);

/* Holds what came out to what must. */
void hold_number(const char *name, size_t found);
void hold_numbers(const char *name, const size_t *list, size_t count);
void hold_reals(const char *name, const double *list, size_t count);
void hold_bytes(const char *name, const uint8_t *list, size_t count);
/* The same for a field that has only the checksum of the floats: FNV-1a over their bytes, the lowest first. */
void hold_checksum(const char *name, const double *list, size_t count);
/* For what the case does not list. */
void hold(bool holds, const char *what);
/* Whether two lists have the same floats, by bits, any NaN being any NaN. */
bool are_alike(const double *left, const double *right, size_t count);

/* Makes the call of the case that was read. */
typedef void Answer(void);
Answer answer_e01_cell;
Answer answer_e02_node;
Answer answer_e03_sqrt;
Answer answer_e03_sampler;
Answer answer_e04_cross;
Answer answer_e05_ratio;
Answer answer_e06_read;
Answer answer_e06_write;
Answer answer_e07_scale;
Answer answer_e07_reference;
Answer answer_e08_smallest;
Answer answer_e09_outside;
Answer answer_e10_words;
Answer answer_e11_nodes;
Answer answer_e11_turn;
Answer answer_e13_polynomials;
Answer answer_e13_curvature;

/* The call of a case of E4, E8 or E10: the floats of its report, or null where it is refused. */
const double *answer_cross(void);
/* The call on a block of a case of E9, which is never refused: the floats of its report. */
const double *answer_block(const char *block);

#endif
