/* What mending makes of a record, as documents 01 to 03 have it: written anew, by none of the code. */
#ifndef RULE_H
#define RULE_H

#include <stdbool.h>
#include <stddef.h>
#include <stdint.h>

enum { RECORD = 8 };

/* What looking up a vector answers: a refusal's number, or 0 with case and reference. */
typedef struct {
    unsigned number;
    unsigned turn_case;
    unsigned reference;
} Found;

Found look_up(const uint8_t *record);

/* The right bytes of a record. */
void mend_record(const uint8_t *record, uint8_t *mended);

/* The line that is said of it, with the line's end; answers how many bytes it has. */
size_t say_record(const uint8_t *record, char *line);

#endif
