/* Cross approximation by the rule of documents 01 to 03, in both modes, written anew: what a call must leave in what it is lent. */
#ifndef RULE_H
#define RULE_H

#include "bbfmm.h"

/* What is asked: a block, column by column, a tolerance and a mode. */
typedef struct {
    size_t rows, columns;
    const double *samples;
    double epsilon;
    bool restart;
} Question;

/* What is lent and written: the terms, the lists, the working lines, and the report. */
typedef struct {
    double *u, *v;
    uint16_t *row_list, *column_list;
    double *row, *column;
    size_t *counts;
    double *numbers;
} Memory;

/* The places of `counts`, and of `numbers`. */
enum { RANK, STOP, READ };
enum { ESTIMATE, SMALLEST };

/* As many terms as there can be: the rows or the columns, whichever are fewer. */
size_t most_terms(const Question *q);
/* How long the row list is in the mode. */
size_t row_list_length(const Question *q);
/* Whether a place stands among the first so many of a list. */
bool is_listed(const uint16_t *list, size_t count, size_t place);

/* Runs to the end, for a question that is not refused. */
void follow_rule(const Question *q, Memory *m);

#endif
