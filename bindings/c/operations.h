/* The operations that answer as sewing does, by name, and those that take a joining table besides. */
#ifndef OPERATIONS_H
#define OPERATIONS_H

#include "sewing.h"

typedef size_t (*operation)(const uint8_t *job, size_t job_length, uint8_t *out, size_t out_length, size_t *value);

struct named {
    const char *name;
    operation run;
};

enum { OPERATIONS = 13, FOR_PRINT = 12 };

/* Sewing first, then the stages in their order, and last sewing for a print shop. */
static const struct named operations[OPERATIONS] = {
    {"sew", zaxclover_sew},
    {"read", zaxclover_read_stage},
    {"pair", zaxclover_pair_stage},
    {"merge", zaxclover_merge_stage},
    {"vertex-loops", zaxclover_vertex_loop_stage},
    {"walk", zaxclover_walk_stage},
    {"loops", zaxclover_loop_stage},
    {"fans", zaxclover_fan_stage},
    {"edges", zaxclover_edge_stage},
    {"joining", zaxclover_joining_stage},
    {"shells", zaxclover_shell_stage},
    {"lumps", zaxclover_lump_stage},
    {"sew for print", zaxclover_sew_for_print},
};

typedef size_t (*table_operation)(const uint8_t *table, size_t table_length, const uint8_t *job, size_t job_length,
                                  uint8_t *out, size_t out_length, size_t *value);

/* An operation that takes a joining table, and the one that it is with the full table. */
struct named_with_table {
    const char *name;
    table_operation run;
    operation ordinary;
};

enum { TABLE_OPERATIONS = 2 };

/* Sewing first. */
static const struct named_with_table table_operations[TABLE_OPERATIONS] = {
    {"sew with a table", zaxclover_sew_with_table, zaxclover_sew},
    {"walk with a table", zaxclover_walk_stage_with_table, zaxclover_walk_stage},
};

/* What an operation answers: 0 and the bytes written, or a refusal's number and its place. */
struct answer {
    size_t number;
    size_t value;
};

#endif
