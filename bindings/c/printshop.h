/*
 * The print-shop profile: what sewing for a print shop must answer, worked out from the job's own bytes, from what merging
 * makes of them (tables.c) and from the ordinary ending, so that it can be held against the operation.
 */
#ifndef PRINTSHOP_H
#define PRINTSHOP_H

#include "operations.h"
#include "tables.h"

#include <stddef.h>
#include <stdint.h>

/* Whether a number is one of loading's, with which all that takes a job refuses it. */
int of_loading(size_t number);

/* Whether an answer refuses a question of this kind: it has no answer, or an undecided one. */
int of_question(struct answer a, size_t kind);

/* How many uses a job that loads has of each edge, by sense (Same and then Reversed), after its faces are selected. */
struct uses {
    size_t edges;
    size_t counts[ZAXCLOVER_EDGES][2];
};

void count_uses(const uint8_t *job, size_t length, struct uses *uses);

/* What stops pairing in a job that loads, edges ascending: 11, 10 or 41 and the edge, or 0. */
struct answer edge_fault(const uint8_t *job, size_t length);

/* A fan: its lowest use, and the vertex and the point where that starts. */
struct fan {
    uint32_t use;
    uint32_t vertex;
    uint32_t point;
};

/*
 * The fans of a job of which no edge is at fault, if its faces join by a table, by ascending lowest use; gives how many, at
 * most as many as there are uses. Missing answers join nothing.
 */
size_t list_fans(const uint8_t *table, const uint8_t *job, size_t length, struct fan *fans);

/* The lowest point of more than one of so many fans: 42 and the point, or 0. */
struct answer point_fault(const struct fan *fans, size_t count);

/* How sewing for a print shop must end, by how ordinary sewing ends in an output as long. */
struct answer for_print(struct answer ordinary, const uint8_t *job, size_t length);

/* Whether sewing for a print shop can answer so at all. */
int can_be_for_print(struct answer a);

#endif
