/*
 * Joining tables: which are refused, and what a permitted one makes of a job. That is worked out here from the job's own
 * bytes and from the stages before merging, so that it can be held against the operations that take a table.
 */
#ifndef TABLES_H
#define TABLES_H

#include "sewing.h"

#include <stddef.h>
#include <stdint.h>

enum { TABLES = 4 };

/* Every permitted table, the full one first. */
extern const uint8_t permitted[TABLES][ZAXCLOVER_TABLE_BYTES];

/* Whether a table is refused with 48; the place is stored. */
int is_refused(const uint8_t *table, size_t length, size_t *place);

/* Whether an ending comes before the first question that a table can change: it is the same with each. */
int before_joining(size_t number, size_t value);

/* What merging makes of a job's faces and uses, and what the walks are that follow from it. */
struct merged {
    size_t faces;
    size_t uses;
    size_t joins;
    size_t removed;
    size_t passed;                  /* in total */
    size_t group[ZAXCLOVER_FACES];  /* the lowest face of each face's group */
    size_t walks_length;
    uint8_t walks[12 * ZAXCLOVER_USES]; /* as the walk stage writes them */
};

/* Of a job whose ending does not come before joining. */
void merge_by(const uint8_t *table, const uint8_t *job, size_t length, struct merged *merged);

#endif
