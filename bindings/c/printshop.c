#include "printshop.h"
#include "jobs.h"

#include <string.h>

/* ANSWERS */

int of_loading(size_t number)
{
    return (number >= ZAXCLOVER_JOB_TOO_LONG && number <= ZAXCLOVER_ANSWERED_BEFORE) || number == ZAXCLOVER_SELECTED_TWICE;
}

int of_question(struct answer a, size_t kind)
{
    return (a.number == ZAXCLOVER_UNANSWERED || a.number == ZAXCLOVER_UNDECIDED) && a.value == kind;
}

int can_be_for_print(struct answer a)
{
    switch (a.number) {
    case ZAXCLOVER_SAME_AFTER_SAME:
    case ZAXCLOVER_NO_TWIN:
    case ZAXCLOVER_WRONG_RADIAL:
    case ZAXCLOVER_PAIRS_IN_BOUNDARY:
    case ZAXCLOVER_FANS_IN_BOUNDARY:
    case ZAXCLOVER_FANS_IN_LUMP:
    case ZAXCLOVER_PAIRS_IN_LUMP:
    case ZAXCLOVER_WRONG_TABLE: return 0;
    default: return !of_question(a, ZAXCLOVER_RADIAL);
    }
}

/* USES, as the job's own records have them */

static uint32_t point_of[ZAXCLOVER_VERTICES]; /* by vertex */
static uint32_t ends_of[ZAXCLOVER_EDGES][2];  /* by edge: start and end vertex */
static size_t edges, uses;
static uint32_t edge_of[ZAXCLOVER_USES], sense_of[ZAXCLOVER_USES]; /* by use, as read */

/* The uses of a loop; a face that is selected Reversed has them backwards, and each in the other sense. */
static void read_loop(const uint8_t *items, size_t count, uint32_t reversed)
{
    for (size_t i = 0; i < count; i++) {
        const uint8_t *item = items + 8 * (reversed ? count - 1 - i : i);
        edge_of[uses] = word(item);
        sense_of[uses++] = word(item + 4) ^ reversed;
    }
}

static void read_job(const uint8_t *job, size_t length)
{
    size_t vertices = 0;
    uint32_t reversed = 0;
    edges = uses = 0;
    for (size_t at = 0; at < length; at += 6 + word(job + at)) {
        const uint8_t *fields = job + at + 6;
        int kind = job[at + 4];
        if (kind == ZAXCLOVER_VERTEX)
            point_of[vertices++] = word(fields);
        if (kind == ZAXCLOVER_EDGE) {
            ends_of[edges][0] = word(fields + 8);
            ends_of[edges++][1] = word(fields + 12);
        }
        if (kind == ZAXCLOVER_FACE)
            reversed = word(fields + 8);
        if (kind == ZAXCLOVER_LOOP)
            read_loop(fields, word(job + at) / 8, reversed);
    }
}

/* EDGES */

static size_t fault_of_edge(size_t same, size_t reversed)
{
    if ((same + reversed) % 2 == 1)
        return ZAXCLOVER_ODD_USES;
    if (same + reversed > 2)
        return ZAXCLOVER_MANY_USES;
    return same == reversed ? 0 : ZAXCLOVER_EQUAL_SENSES;
}

void count_uses(const uint8_t *job, size_t length, struct uses *counted)
{
    read_job(job, length);
    memset(counted, 0, sizeof *counted);
    counted->edges = edges;
    for (size_t h = 0; h < uses; h++)
        counted->counts[edge_of[h]][sense_of[h]]++;
}

struct answer edge_fault(const uint8_t *job, size_t length)
{
    static struct uses counted;
    count_uses(job, length, &counted);
    for (size_t e = 0; e < counted.edges; e++) {
        size_t number = fault_of_edge(counted.counts[e][0], counted.counts[e][1]);
        if (number != 0)
            return (struct answer){number, e};
    }
    return (struct answer){0, 0};
}

/* POINTS */

static uint32_t twin_of[ZAXCLOVER_USES];
static uint32_t parent_of[ZAXCLOVER_USES]; /* leads to the lowest use of the fan */

/* The two uses of each edge are twins. */
static void pair_uses(void)
{
    static uint32_t first_of[ZAXCLOVER_EDGES];
    memset(first_of, 0xFF, sizeof first_of);
    for (uint32_t h = 0; h < uses; h++) {
        uint32_t first = first_of[edge_of[h]];
        if (first == ZAXCLOVER_NONE) {
            first_of[edge_of[h]] = h;
            continue;
        }
        twin_of[h] = first;
        twin_of[first] = h;
    }
}

static uint32_t lowest_of(uint32_t h)
{
    while (parent_of[h] != h) {
        parent_of[h] = parent_of[parent_of[h]];
        h = parent_of[h];
    }
    return h;
}

static void join_fans(uint32_t a, uint32_t b)
{
    uint32_t low = lowest_of(a);
    uint32_t high = lowest_of(b);
    parent_of[low < high ? high : low] = low < high ? low : high;
}

static int has_ends(uint32_t h)
{
    return ends_of[edge_of[h]][0] != ZAXCLOVER_NONE;
}

/* At the end of a kept use its successor and its twin start: these lie in one fan. */
static void make_fans(const struct merged *merged)
{
    pair_uses();
    for (uint32_t h = 0; h < uses; h++)
        parent_of[h] = h;
    for (size_t at = 0; at < merged->walks_length; at += 12) {
        uint32_t h = word(merged->walks + at);
        if (has_ends(h))
            join_fans(word(merged->walks + at + 4), twin_of[h]);
    }
}

size_t list_fans(const uint8_t *table, const uint8_t *job, size_t length, struct fan *fans)
{
    static struct merged merged;
    size_t count = 0;
    read_job(job, length);
    merge_by(table, job, length, &merged);
    make_fans(&merged);
    for (size_t at = 0; at < merged.walks_length; at += 12) {
        uint32_t h = word(merged.walks + at);
        if (!has_ends(h) || parent_of[h] != h)
            continue;
        uint32_t vertex = ends_of[edge_of[h]][sense_of[h]];
        fans[count++] = (struct fan){h, vertex, point_of[vertex]};
    }
    return count;
}

/* Whether the point of a fan is that of a later one. */
static int stands_again(const struct fan *fans, size_t count, size_t i)
{
    for (size_t k = i + 1; k < count; k++)
        if (fans[k].point == fans[i].point)
            return 1;
    return 0;
}

struct answer point_fault(const struct fan *fans, size_t count)
{
    struct answer fault = {0, 0};
    for (size_t i = 0; i < count; i++)
        if ((fault.number == 0 || fans[i].point < fault.value) && stands_again(fans, count, i))
            fault = (struct answer){ZAXCLOVER_MANY_FANS, fans[i].point};
    return fault;
}

/* THE PROFILE */

struct answer for_print(struct answer ordinary, const uint8_t *job, size_t length)
{
    static struct fan fans[ZAXCLOVER_USES];
    if (of_loading(ordinary.number))
        return ordinary;
    struct answer fault = edge_fault(job, length);
    if (fault.number != 0)
        return fault;
    if (before_joining(ordinary.number, ordinary.value) || of_question(ordinary, ZAXCLOVER_POINTS))
        return ordinary;
    fault = point_fault(fans, list_fans(permitted[0], job, length, fans));
    return fault.number != 0 ? fault : ordinary;
}
