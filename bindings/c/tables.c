#include "tables.h"
#include "jobs.h"

#include <string.h>

/* WHICH ARE REFUSED */

const uint8_t permitted[TABLES][ZAXCLOVER_TABLE_BYTES] = {{1, 0, 0, 1}, {1, 0, 0, 0}, {0, 0, 0, 1}, {0, 0, 0, 0}};

int is_refused(const uint8_t *table, size_t length, size_t *place)
{
    *place = ZAXCLOVER_TABLE_BYTES;
    if (length != ZAXCLOVER_TABLE_BYTES)
        return 1;
    for (size_t i = 0; i < length; i++) {
        if (table[i] == 0 || (table[i] == 1 && permitted[0][i] == 1))
            continue;
        *place = i;
        return 1;
    }
    return 0;
}

int before_joining(size_t number, size_t value)
{
    switch (number) {
    case ZAXCLOVER_DONE:
    case ZAXCLOVER_PAIRS_IN_BOUNDARY:
    case ZAXCLOVER_FANS_IN_BOUNDARY:
    case ZAXCLOVER_FANS_IN_LUMP:
    case ZAXCLOVER_PAIRS_IN_LUMP:
    case ZAXCLOVER_VOID_OUTSIDE:
    case ZAXCLOVER_NO_ROOM: return 0;
    case ZAXCLOVER_UNANSWERED:
    case ZAXCLOVER_UNDECIDED: return value <= ZAXCLOVER_SURFACE;
    default: return 1;
    }
}

/* WHAT A TABLE MAKES OF A JOB */

/* Each use's face, old successor and twin, each face's stored sense, and the surface answers by use. */
static uint32_t face_of[ZAXCLOVER_USES], next_of[ZAXCLOVER_USES], twin_of[ZAXCLOVER_USES];
static uint32_t sense_of[ZAXCLOVER_FACES];
static uint32_t surface_of[ZAXCLOVER_USES];
static int is_removed[ZAXCLOVER_USES];

static void read_uses(const uint8_t *job, size_t length, struct merged *merged)
{
    static uint8_t rows[16 * ZAXCLOVER_USES];
    size_t size;
    zaxclover_read_stage(job, length, rows, sizeof rows, &size);
    merged->uses = size / 16;
    for (size_t h = 0; h < merged->uses; h++) {
        face_of[h] = word(rows + 16 * h + 4);
        next_of[h] = word(rows + 16 * h + 12);
    }
}

static void read_twins(const uint8_t *job, size_t length, size_t uses)
{
    static uint8_t twins[4 * ZAXCLOVER_USES];
    size_t size;
    zaxclover_pair_stage(job, length, twins, sizeof twins, &size);
    for (size_t h = 0; h < uses; h++)
        twin_of[h] = word(twins + 4 * h);
}

static void read_records(const uint8_t *job, size_t length, struct merged *merged)
{
    merged->faces = 0;
    memset(surface_of, 0, sizeof surface_of);
    for (size_t at = 0; at < length; at += 6 + word(job + at)) {
        const uint8_t *fields = job + at + 6;
        if (job[at + 4] == ZAXCLOVER_FACE)
            sense_of[merged->faces++] = word(fields + 4) ^ word(fields + 8);
        if (job[at + 4] == ZAXCLOVER_SURFACE)
            surface_of[word(fields)] = word(fields + 4);
    }
}

/* Whether the table joins the faces of a use and its twin. */
static int joins(const uint8_t *table, size_t h)
{
    uint32_t answer = surface_of[h];
    int different = sense_of[face_of[h]] != sense_of[face_of[twin_of[h]]];
    if (answer == 0)
        return 0;
    return table[(answer == 1 ? ZAXCLOVER_AGREEING_EQUAL : ZAXCLOVER_OPPOSED_EQUAL) + different];
}

/* Two groups become one, named by the lower of their lowest faces. */
static void join(struct merged *merged, size_t a, size_t b)
{
    size_t low = a < b ? a : b;
    size_t high = a < b ? b : a;
    for (size_t face = 0; face < merged->faces; face++)
        if (merged->group[face] == high)
            merged->group[face] = low;
    merged->joins += a != b;
}

/* Each face in a group of its own. */
static void part_faces(struct merged *merged)
{
    merged->joins = 0;
    for (size_t face = 0; face < merged->faces; face++)
        merged->group[face] = face;
}

static void group_faces(const uint8_t *table, struct merged *merged)
{
    part_faces(merged);
    for (size_t h = 0; h < merged->uses; h++)
        if (h < twin_of[h] && face_of[h] != face_of[twin_of[h]] && joins(table, h))
            join(merged, merged->group[face_of[h]], merged->group[face_of[twin_of[h]]]);
}

/* Removed are the uses whose face is joined with their twin's. */
static void remove_uses(struct merged *merged)
{
    merged->removed = 0;
    for (size_t h = 0; h < merged->uses; h++) {
        is_removed[h] = merged->group[face_of[h]] == merged->group[face_of[twin_of[h]]];
        merged->removed += (size_t)is_removed[h];
    }
}

/* The first use from one on that is not removed: past a removed use goes on what follows its twin. */
static uint32_t first_kept(uint32_t use, uint32_t *passed)
{
    for (*passed = 0; is_removed[use]; ++*passed)
        use = next_of[twin_of[use]];
    return use;
}

static void put_walk(struct merged *merged, uint32_t use, uint32_t successor, uint32_t passed)
{
    const uint32_t row[] = {use, successor, passed};
    for (size_t i = 0; i < 12; i++)
        merged->walks[merged->walks_length++] = (uint8_t)(row[i / 4] >> 8 * (i % 4));
}

static void walk(struct merged *merged)
{
    merged->passed = 0;
    merged->walks_length = 0;
    for (size_t h = 0; h < merged->uses; h++) {
        if (is_removed[h])
            continue;
        uint32_t passed;
        uint32_t successor = first_kept(next_of[h], &passed);
        put_walk(merged, (uint32_t)h, successor, passed);
        merged->passed += passed;
    }
}

void merge_by(const uint8_t *table, const uint8_t *job, size_t length, struct merged *merged)
{
    read_uses(job, length, merged);
    read_twins(job, length, merged->uses);
    read_records(job, length, merged);
    group_faces(table, merged);
    remove_uses(merged);
    walk(merged);
}
