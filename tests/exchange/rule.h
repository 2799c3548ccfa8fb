/* Matrix Market texts by the rule of documents 02 and 03, written anew: what each of the three calls must answer, and leave in what it
   is lent. A rule takes what its call takes, and answers the same: number + 256 * line. */
#ifndef RULE_H
#define RULE_H

#include "bbfmm.h"

uint64_t rule_size(const uint8_t *text, size_t text_length, size_t *sizes, size_t sizes_length);

uint64_t rule_read(
    const uint8_t *text, size_t text_length, double *block, size_t block_length, size_t *sizes, size_t sizes_length);

uint64_t rule_write(
    size_t rows, size_t columns, const double *block, size_t block_length, uint8_t *text, size_t text_length, size_t *written,
    size_t written_length);

#endif
