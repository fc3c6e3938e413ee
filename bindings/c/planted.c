/*
 * Faults planted between the load and the library, one for each value of FAULT from 1 to 97. `bindings/load --planted`
 * sees that the load notices each. Built without the memory checker, as the library is.
 */
#include "jobs.h"
#include "operations.h"
#include "printshop.h"
#include "tables.h"

#include <string.h>

size_t __real_zaxclover_sew(const uint8_t *job, size_t job_length, uint8_t *out, size_t out_length, size_t *value);
size_t __wrap_zaxclover_sew(const uint8_t *job, size_t job_length, uint8_t *out, size_t out_length, size_t *value);

/* A FACE SELECTED TWICE */

/* The job with other bodies or source faces. */
static struct job other;

static void take(const uint8_t *job, size_t job_length)
{
    other.length = job_length;
    memcpy(other.bytes, job, job_length);
}

/* The record before the one at a place. */
static size_t record_before(const uint8_t *job, size_t place)
{
    size_t before = 0;
    for (size_t at = 0; at < place; at += 6 + word(job + at))
        before = at;
    return before;
}

/* Bodies 0 and 1 become one, or source faces lose their upper two bytes. */
static void make_alike(int bodies)
{
    for (size_t at = 0; other.length - at >= 26 && word(other.bytes + at) <= other.length - at - 6;) {
        if (other.bytes[at + 4] == ZAXCLOVER_FACE && word(other.bytes + at) == 20) {
            if (bodies)
                other.bytes[at + 18] &= 0xFE;
            else
                memset(other.bytes + at + 24, 0, 2);
        }
        at += 6 + word(other.bytes + at);
    }
}

/* Sews the job with other source faces in place of those that are refused. */
static size_t pass_over(size_t number, uint8_t *out, size_t out_length, size_t *value)
{
    for (unsigned tries = 1; number == ZAXCLOVER_SELECTED_TWICE; tries++) {
        memset(other.bytes + *value + 22, (int)(tries & 0xFF), 4);
        number = __real_zaxclover_sew(other.bytes, other.length, out, out_length, value);
    }
    return number;
}

static size_t spoil_repeat(size_t number, uint8_t *out, size_t out_length, size_t *value)
{
    if (FAULT == 9 && number == ZAXCLOVER_SELECTED_TWICE) /* another number */
        return ZAXCLOVER_WRONG_FIELD;
    if (FAULT == 10 && number == ZAXCLOVER_SELECTED_TWICE) /* the place of the record before */
        *value = record_before(other.bytes, *value);
    if (FAULT == 11 || FAULT == 12) { /* the body, or the upper two bytes of the source face, not looked at */
        size_t place;
        make_alike(FAULT == 11);
        if (__real_zaxclover_sew(other.bytes, other.length, NULL, 0, &place) == ZAXCLOVER_SELECTED_TWICE) {
            *value = place;
            return ZAXCLOVER_SELECTED_TWICE;
        }
    }
    if (FAULT == 13) /* passed over */
        return pass_over(number, out, out_length, value);
    if (FAULT == 14 && number == ZAXCLOVER_WRONG_FIELD && first_repeat(other.bytes, other.length) == *value)
        return ZAXCLOVER_SELECTED_TWICE; /* before its fields */
    return number;
}

size_t __wrap_zaxclover_sew(const uint8_t *job, size_t job_length, uint8_t *out, size_t out_length, size_t *value)
{
    static unsigned calls;
    size_t number = __real_zaxclover_sew(job, job_length, out, out_length, value);
    calls++;
    if (FAULT == 1) /* a byte written after the output */
        out[out_length] = 0;
    if (FAULT == 2 && number != 0 && out_length > 0) /* a byte written on a refusal */
        out[0] ^= 1;
    if (FAULT == 3 && number == 0 && *value < out_length) /* a byte written after the last */
        out[*value] ^= 1;
    if (FAULT == 4) /* a byte read after the job */
        (void)*(volatile const uint8_t *)(job + job_length);
    if (FAULT == 5 && calls % 1000 == 0) /* another answer the second time */
        *value += 1;
    if (FAULT == 6 && number == 0) /* another output the second time */
        out[6] ^= calls & 1;
    if (FAULT == 7 && job_length > 0) /* the job changed */
        *(uint8_t *)(uintptr_t)job ^= 1;
    if (FAULT == 8 && number == 31) /* a number that no refusal has */
        number = 35;
    if (FAULT < 9)
        return number;
    take(job, job_length);
    return spoil_repeat(number, out, out_length, value);
}

/* A JOINING TABLE */

size_t __real_zaxclover_sew_with_table(const uint8_t *table, size_t table_length, const uint8_t *job, size_t job_length,
                                       uint8_t *out, size_t out_length, size_t *value);
size_t __wrap_zaxclover_sew_with_table(const uint8_t *table, size_t table_length, const uint8_t *job, size_t job_length,
                                       uint8_t *out, size_t out_length, size_t *value);
size_t __real_zaxclover_walk_stage_with_table(const uint8_t *table, size_t table_length, const uint8_t *job,
                                              size_t job_length, uint8_t *out, size_t out_length, size_t *value);
size_t __wrap_zaxclover_walk_stage_with_table(const uint8_t *table, size_t table_length, const uint8_t *job,
                                              size_t job_length, uint8_t *out, size_t out_length, size_t *value);

/* Another table in place of the one that is given. */
struct table {
    size_t length;
    uint8_t bytes[512];
};

/* The first faulty entry of a table of any length, or 4. */
static size_t faulty_entry(const struct table *t)
{
    for (size_t i = 0; i < ZAXCLOVER_TABLE_BYTES && i < t->length; i++)
        if (t->bytes[i] > permitted[0][i])
            return i;
    return ZAXCLOVER_TABLE_BYTES;
}

/* Takes a table of another length for one of four bytes. */
static void take_for_whole(struct table *t)
{
    if (FAULT == 15 && t->length > ZAXCLOVER_TABLE_BYTES) /* bytes after the fourth not looked at */
        t->length = ZAXCLOVER_TABLE_BYTES;
    if (FAULT == 16 && t->length < ZAXCLOVER_TABLE_BYTES) { /* missing entries taken as 0 */
        memset(t->bytes + t->length, 0, ZAXCLOVER_TABLE_BYTES - t->length);
        t->length = ZAXCLOVER_TABLE_BYTES;
    }
    if (FAULT == 17 && t->length == 0) { /* no table taken as the full one */
        memcpy(t->bytes, permitted[0], ZAXCLOVER_TABLE_BYTES);
        t->length = ZAXCLOVER_TABLE_BYTES;
    }
}

/* What an entry of a table of four bytes is taken for. */
static uint8_t taken_entry(size_t i, uint8_t entry)
{
    int joins_nothing = i == ZAXCLOVER_AGREEING_DIFFERENT || i == ZAXCLOVER_OPPOSED_EQUAL;
    if (FAULT == 18 && joins_nothing && entry == 1) /* a 1 permitted, and passed over, where nothing joins */
        return 0;
    if (FAULT == 19 && entry > 1) /* an entry above 1 taken as 1 */
        return 1;
    if (FAULT == 20) /* only the lowest bit of an entry looked at */
        return entry & 1;
    return entry;
}

/* Takes a permitted table for another. */
static void take_for_other(struct table *t)
{
    uint8_t first = t->bytes[0];
    if (FAULT == 21) { /* the rows exchanged, and the columns */
        t->bytes[0] = t->bytes[3];
        t->bytes[3] = first;
    }
    if (FAULT == 22) /* the full table in place of any other */
        memcpy(t->bytes, permitted[0], ZAXCLOVER_TABLE_BYTES);
    if (FAULT == 23 && first == 1) /* opposed surfaces join though they should not */
        t->bytes[3] = 1;
    if (FAULT == 24 && t->bytes[3] == 1) /* agreeing surfaces join though they should not */
        t->bytes[0] = 1;
    if (FAULT == 25 && first == 0 && t->bytes[3] == 0) /* a table of zeros refused */
        t->length = 0;
}

/* Takes a table for another that is permitted, or for another that is refused. */
static void take_for(struct table *t)
{
    int whole = t->length == ZAXCLOVER_TABLE_BYTES;
    int is_permitted = whole && faulty_entry(t) == ZAXCLOVER_TABLE_BYTES;
    take_for_whole(t);
    for (size_t i = 0; whole && i < ZAXCLOVER_TABLE_BYTES; i++)
        t->bytes[i] = taken_entry(i, t->bytes[i]);
    if (is_permitted)
        take_for_other(t);
}

/* The last faulty entry of a table of four bytes that has one. */
static size_t last_faulty_entry(const struct table *t)
{
    size_t i = ZAXCLOVER_TABLE_BYTES - 1;
    while (i > 0 && t->bytes[i] <= permitted[0][i])
        i--;
    return i;
}

/* The first entry above 1 of a table of four bytes, or else the place. */
static size_t entry_above_1(const struct table *t, size_t place)
{
    for (size_t i = 0; i < ZAXCLOVER_TABLE_BYTES; i++)
        if (t->bytes[i] > 1)
            return i;
    return place;
}

/* The place of a refusal with 48 that has another. */
static size_t misplaced(const struct table *t, size_t place)
{
    int whole = t->length == ZAXCLOVER_TABLE_BYTES;
    if (FAULT == 26 && !whole) /* 0 for a wrong length */
        return 0;
    if (FAULT == 27 && !whole) /* the length */
        return t->length;
    if (FAULT == 28 && !whole) /* entries before the length */
        return faulty_entry(t);
    if (FAULT == 29 && whole) /* the last faulty entry */
        return last_faulty_entry(t);
    if (FAULT == 30 && whole) /* entries above 1 before those that are 1 */
        return entry_above_1(t, place);
    if (FAULT == 31 && whole) /* counted from 1 */
        return place + 1;
    return place;
}

/* The answer without a table, where a refusal of the job comes before that of the table. */
static int comes_before(operation ordinary, const uint8_t *job, size_t job_length, uint8_t *out, size_t out_length,
                        size_t *number, size_t *value)
{
    size_t place;
    size_t refusal = ordinary(job, job_length, NULL, 0, &place);
    int first = (FAULT == 32 && refusal == ZAXCLOVER_JOB_TOO_LONG)
        || (FAULT == 33 && refusal == ZAXCLOVER_WRONG_RECORD && job_length == 0)
        || (FAULT == 34 && refusal >= ZAXCLOVER_CUT_SHORT && refusal <= ZAXCLOVER_ANSWERED_BEFORE)
        || (FAULT == 35 && refusal == ZAXCLOVER_SELECTED_TWICE)
        || (FAULT == 36 && before_joining(refusal, place) && refusal > ZAXCLOVER_ANSWERED_BEFORE)
        || (FAULT == 37 && refusal == ZAXCLOVER_NO_ROOM && place > out_length);
    if (first)
        *number = ordinary(job, job_length, out, out_length, value);
    return first;
}

/* Whether a table is permitted and not the full one. */
static int is_lesser(const uint8_t *table, size_t table_length)
{
    size_t place;
    return !is_refused(table, table_length, &place) && memcmp(table, permitted[0], ZAXCLOVER_TABLE_BYTES) != 0;
}

/* What is wrong with an answer or an output that is right otherwise. */
static size_t spoil_answer(size_t number, const uint8_t *table, size_t table_length, uint8_t *out, size_t out_length,
                           size_t *value)
{
    int lesser = is_lesser(table, table_length);
    if (FAULT == 38 && number == ZAXCLOVER_WRONG_TABLE) /* another number */
        return ZAXCLOVER_WRONG_FIELD;
    if (FAULT == 39 && number == ZAXCLOVER_WRONG_TABLE && out_length > 0) /* a byte written on a refusal of the table */
        out[0] ^= 1;
    if (FAULT == 40 && table_length > 0) /* the table changed */
        *(uint8_t *)(uintptr_t)table ^= 1;
    if (FAULT == 41) /* a byte read after the table */
        (void)*(volatile const uint8_t *)(table + table_length);
    if (FAULT == 42) /* a byte written after the output */
        out[out_length] = 0;
    if (FAULT == 43 && lesser && number == 0 && *value > 0) /* the last byte left out */
        *value -= 1;
    if (FAULT == 44 && lesser && number == ZAXCLOVER_UNANSWERED && *value == ZAXCLOVER_SURFACE) /* another kind of question */
        *value = ZAXCLOVER_POINTS;
    if (FAULT == 45 && lesser && number == ZAXCLOVER_PAIRS_IN_BOUNDARY) /* another number where pairs touch */
        return ZAXCLOVER_PAIRS_IN_LUMP;
    return number;
}

static size_t with_fault(const struct named_with_table *real, const uint8_t *table, size_t table_length, const uint8_t *job,
                         size_t job_length, uint8_t *out, size_t out_length, size_t *value)
{
    struct table t = {.length = table_length};
    size_t place, number;
    if (table_length > 0)
        memcpy(t.bytes, table, table_length);
    if (is_refused(table, table_length, &place)
        && comes_before(real->ordinary, job, job_length, out, out_length, &number, value))
        return number;
    take_for(&t);
    number = real->run(t.bytes, t.length, job, job_length, out, out_length, value);
    if (number == ZAXCLOVER_WRONG_TABLE)
        *value = misplaced(&t, *value);
    return spoil_answer(number, table, table_length, out, out_length, value);
}

static const struct named_with_table real_sew = {"sew", __real_zaxclover_sew_with_table, __real_zaxclover_sew};
static const struct named_with_table real_walk = {"walk", __real_zaxclover_walk_stage_with_table, zaxclover_walk_stage};

/* Body, or walks, of the full table. */
static size_t full(const struct named_with_table *real, const uint8_t *job, size_t job_length, uint8_t *out,
                   size_t out_length, size_t *value)
{
    return real->run(permitted[0], ZAXCLOVER_TABLE_BYTES, job, job_length, out, out_length, value);
}

size_t __wrap_zaxclover_sew_with_table(const uint8_t *table, size_t table_length, const uint8_t *job, size_t job_length,
                                       uint8_t *out, size_t out_length, size_t *value)
{
    size_t number = with_fault(&real_sew, table, table_length, job, job_length, out, out_length, value);
    if (FAULT == 46 && number == 0) { /* the face joins of the full table */
        static uint8_t other_out[ZAXCLOVER_JOB_BYTES];
        size_t length;
        if (full(&real_sew, job, job_length, other_out, sizeof other_out, &length) == 0)
            memcpy(out + 30, other_out + 30, 4);
    }
    if (FAULT == 47 && number == 0 && is_lesser(table, table_length)) /* nothing removed */
        memset(out + 14, 0, 4);
    return number;
}

size_t __wrap_zaxclover_walk_stage_with_table(const uint8_t *table, size_t table_length, const uint8_t *job,
                                              size_t job_length, uint8_t *out, size_t out_length, size_t *value)
{
    size_t place;
    int refused = is_refused(table, table_length, &place);
    if (FAULT == 48 && !refused) /* the table not looked at by the walks alone */
        return full(&real_walk, job, job_length, out, out_length, value);
    if (FAULT == 49 && refused) { /* the table not held by the walks alone before the job is loaded */
        size_t number = zaxclover_read_stage(job, job_length, NULL, 0, value);
        if (before_joining(number, *value))
            return number;
    }
    if (FAULT == 50 && is_lesser(table, table_length)) { /* passed counts of 0 */
        size_t number = with_fault(&real_walk, table, table_length, job, job_length, out, out_length, value);
        for (size_t at = 8; number == 0 && at < *value; at += 12)
            memset(out + at, 0, 4);
        return number;
    }
    return with_fault(&real_walk, table, table_length, job, job_length, out, out_length, value);
}

/* A PRINT SHOP */

size_t __real_zaxclover_sew_for_print(const uint8_t *job, size_t job_length, uint8_t *out, size_t out_length, size_t *value);
size_t __wrap_zaxclover_sew_for_print(const uint8_t *job, size_t job_length, uint8_t *out, size_t out_length, size_t *value);

/* In place of a number: what ordinary sewing answers and writes. */
enum { AS_ORDINARY = 1000 };

static const struct answer as_ordinary = {AS_ORDINARY, 0};

/* A call, what is due of it and of ordinary sewing without room, the uses of the job's edges if it loads, and its fans. */
struct print {
    const uint8_t *job;
    size_t job_length;
    size_t out_length;
    struct answer due;
    struct answer ordinary;
    struct uses uses;
    struct fan fans[ZAXCLOVER_USES]; /* if no edge is at fault */
    size_t fan_count;
};

static struct answer told(size_t number, size_t value)
{
    return (struct answer){number, value};
}

static size_t uses_of(const struct print *p, size_t edge)
{
    return p->uses.counts[edge][0] + p->uses.counts[edge][1];
}

/* The first edge from one on with more than two uses, an even number of them; or the number of edges. */
static size_t many_from(const struct print *p, size_t edge)
{
    while (edge < p->uses.edges && (uses_of(p, edge) <= 2 || uses_of(p, edge) % 2 == 1))
        edge++;
    return edge;
}

/* The last edge with an even number of uses above two. */
static size_t last_many(const struct print *p)
{
    size_t last = p->due.value;
    for (size_t e = many_from(p, last); e < p->uses.edges; e = many_from(p, e + 1))
        last = e;
    return last;
}

/* The first edge with an odd number of uses; or the number of edges. */
static size_t first_odd(const struct print *p)
{
    size_t edge = 0;
    while (edge < p->uses.edges && uses_of(p, edge) % 2 == 0)
        edge++;
    return edge;
}

/* The first edge with two uses in one sense; or the number of edges. */
static size_t first_equal(const struct print *p)
{
    size_t edge = 0;
    while (edge < p->uses.edges && (uses_of(p, edge) != 2 || p->uses.counts[edge][0] == 1))
        edge++;
    return edge;
}

/* The first edge without uses; or the number of edges. */
static size_t first_unused(const struct print *p)
{
    size_t edge = 0;
    while (edge < p->uses.edges && uses_of(p, edge) != 0)
        edge++;
    return edge;
}

/* The place of the n-th record of a kind. */
static size_t record_place(const struct print *p, int kind, size_t n)
{
    size_t at = 0;
    for (; p->job[at + 4] != kind || n > 0; at += 6 + word(p->job + at))
        n -= p->job[at + 4] == kind;
    return at;
}

/* The number of an edge's first use, in a job whose faces are all selected Same; the edge if it has none. */
static size_t first_use(const struct print *p, size_t edge)
{
    size_t use = 0;
    for (size_t at = 0; at < p->job_length; at += 6 + word(p->job + at)) {
        if (p->job[at + 4] != ZAXCLOVER_LOOP)
            continue;
        for (size_t item = 0; item < word(p->job + at) / 8; item++, use++)
            if (word(p->job + at + 6 + 8 * item) == edge)
                return use;
    }
    return edge;
}

/* Whether ordinary sewing refuses what stands in the radial list of an edge, or that there is none. */
static int of_radial(struct answer a)
{
    return of_question(a, ZAXCLOVER_RADIAL) || a.number == ZAXCLOVER_WRONG_RADIAL || a.number == ZAXCLOVER_SAME_AFTER_SAME;
}

/* Whether ordinary sewing would need more room than there is. */
static int is_short(const struct print *p)
{
    return p->ordinary.number == ZAXCLOVER_NO_ROOM && p->ordinary.value > p->out_length;
}

/* What is told where an edge has too many uses. */
static struct answer wrong_at_edge(const struct print *p)
{
    size_t edge = p->due.value;
    size_t odd = first_odd(p);
    size_t equal = first_equal(p);
    int one_sense = p->uses.counts[edge][0] == 0 || p->uses.counts[edge][1] == 0;
    int is_ring = word(p->job + record_place(p, ZAXCLOVER_EDGE, edge) + 14) == ZAXCLOVER_NONE;
    switch (FAULT) {
    case 51: return as_ordinary;                                                    /* passed over */
    case 52: return told(ZAXCLOVER_ODD_USES, edge);                                 /* another number */
    case 53: return told(ZAXCLOVER_PAIRS_IN_BOUNDARY, edge);                        /* another number */
    case 54: return told(ZAXCLOVER_MANY_FANS, edge);                                /* the numbers exchanged */
    case 55: return uses_of(p, edge) != 4 ? as_ordinary : p->due;                   /* only four uses refused */
    case 56: return one_sense ? told(ZAXCLOVER_EQUAL_SENSES, edge) : p->due;        /* one sense tested first */
    case 57: return odd < p->uses.edges ? told(ZAXCLOVER_ODD_USES, odd) : p->due;   /* after 11 of every edge */
    case 58: return equal < p->uses.edges ? told(ZAXCLOVER_EQUAL_SENSES, equal) : p->due; /* after 10 of every edge */
    case 59: return told(ZAXCLOVER_MANY_USES, last_many(p));                        /* the last such edge */
    case 60: return told(ZAXCLOVER_MANY_USES, first_use(p, edge));                  /* the place of a use */
    case 61: return told(ZAXCLOVER_MANY_USES, uses_of(p, edge));                    /* how many uses, for the place */
    case 62: return of_radial(p->ordinary) ? p->ordinary : p->due;                  /* the radial list first */
    case 63: return is_ring ? as_ordinary : p->due;                                 /* only edges with ends refused */
    case 64: return is_ring ? p->due : as_ordinary;                                 /* only rings refused */
    case 65: return p->ordinary.number == ZAXCLOVER_NO_ROOM ? as_ordinary : p->due; /* only if not sewn ordinarily */
    case 66: return is_short(p) ? p->ordinary : p->due;                             /* after 40 */
    default: return p->due;
    }
}

/* How many fans stand at a point. */
static size_t fans_at(const struct print *p, uint32_t point)
{
    size_t count = 0;
    for (size_t i = 0; i < p->fan_count; i++)
        count += p->fans[i].point == point;
    return count;
}

/* The first fan, by its lowest use, at whose point another stands. */
static const struct fan *first_touching(const struct print *p)
{
    size_t i = 0;
    while (fans_at(p, p->fans[i].point) == 1)
        i++;
    return &p->fans[i];
}

/* The highest point with more than one fan. */
static size_t highest_touched(const struct print *p)
{
    size_t highest = p->due.value;
    for (size_t i = 0; i < p->fan_count; i++)
        if (p->fans[i].point > highest && fans_at(p, p->fans[i].point) > 1)
            highest = p->fans[i].point;
    return highest;
}

/* What is told if of some fans only those with another vertex, or with another point than a given one, are looked at. */
static struct answer fault_of_some(const struct print *p, int by_vertex, int without, uint32_t point)
{
    static struct fan some[ZAXCLOVER_USES];
    size_t count = 0;
    for (size_t i = 0; i < p->fan_count; i++) {
        if (without && p->fans[i].point == point)
            continue;
        some[count] = p->fans[i];
        if (by_vertex)
            some[count].point = some[count].vertex;
        count++;
    }
    struct answer fault = point_fault(some, count);
    return fault.number == 0 ? as_ordinary : fault;
}

/* What is told where a point has too many fans. */
static struct answer wrong_at_point(const struct print *p)
{
    uint32_t point = (uint32_t)p->due.value;
    const struct fan *first = first_touching(p);
    struct answer by_vertex = fault_of_some(p, 1, 0, 0);
    struct answer o = p->ordinary;
    int of_joining = of_question(o, ZAXCLOVER_CURVES) || of_question(o, ZAXCLOVER_SINGULAR);
    int of_nesting = of_question(o, ZAXCLOVER_ORIENTATION) || of_question(o, ZAXCLOVER_INSIDE);
    switch (FAULT) {
    case 67: return as_ordinary;                                                      /* passed over */
    case 68: return told(ZAXCLOVER_FANS_IN_BOUNDARY, point);                          /* another number */
    case 69: return told(ZAXCLOVER_FANS_IN_LUMP, point);                              /* another number */
    case 70: return told(ZAXCLOVER_MANY_USES, point);                                 /* the numbers exchanged */
    case 71: return told(ZAXCLOVER_MANY_FANS, highest_touched(p));                    /* the highest point */
    case 72: return told(ZAXCLOVER_MANY_FANS, first->point);                          /* the first that is met */
    case 73: return point == 0 ? fault_of_some(p, 0, 1, 0) : p->due;                  /* point 0 passed over */
    case 74: return told(ZAXCLOVER_MANY_FANS, first->use);                            /* the place of a use */
    case 75: return told(ZAXCLOVER_MANY_FANS, first->vertex);                         /* the place of a vertex */
    case 76: return by_vertex.number == AS_ORDINARY ? as_ordinary : p->due;           /* only fans at one vertex */
    case 77: return fans_at(p, point) == 2 ? fault_of_some(p, 0, 1, point) : p->due;  /* two fans passed over */
    case 78: return o.number == ZAXCLOVER_FANS_IN_BOUNDARY ? p->due : as_ordinary;    /* only in one boundary */
    case 79: return of_joining ? o : p->due;                                          /* after joining's questions */
    case 80: return of_nesting ? o : p->due;                                          /* after those of nesting */
    case 81: return o.number == ZAXCLOVER_VOID_OUTSIDE ? o : p->due;                  /* after 34 */
    case 82: return is_short(p) ? o : p->due;                                         /* after 40 */
    case 83: return o.number == ZAXCLOVER_NO_ROOM ? as_ordinary : p->due;             /* only if not sewn ordinarily */
    default: return p->due;
    }
}

/* What sewing for a print shop would tell of the job with other source faces in place of those that are refused. */
static struct answer told_without_repeats(const struct print *p)
{
    struct answer a = p->due;
    take(p->job, p->job_length);
    for (unsigned tries = 1; a.number == ZAXCLOVER_SELECTED_TWICE; tries++) {
        memset(other.bytes + a.value + 22, (int)(tries & 0xFF), 4);
        a.number = __real_zaxclover_sew_for_print(other.bytes, other.length, NULL, 0, &a.value);
    }
    return a;
}

/* The point of 42 if faces join by a table, or else what is due. */
static struct answer point_by(const struct print *p, const uint8_t *table)
{
    static struct fan fans[ZAXCLOVER_USES];
    struct answer fault = point_fault(fans, list_fans(table, p->job, p->job_length, fans));
    return fault.number == 0 ? p->due : fault;
}

/* What is told where no edge has too many uses and no point too many fans, or where that is not looked at. */
static struct answer wrong_elsewhere(const struct print *p)
{
    int accepted = p->due.number == ZAXCLOVER_NO_ROOM;
    int of_surface = of_question(p->due, ZAXCLOVER_SURFACE) || p->due.number == ZAXCLOVER_NORMALS_VANISH;
    int of_edge = p->due.number == ZAXCLOVER_EQUAL_SENSES || p->due.number == ZAXCLOVER_ODD_USES;
    size_t many = many_from(p, 0);
    if (FAULT == 84 && p->due.number == ZAXCLOVER_SELECTED_TWICE) { /* 41 before 45 */
        struct answer a = told_without_repeats(p);
        return a.number == ZAXCLOVER_MANY_USES ? a : p->due;
    }
    if (FAULT == 85 && of_edge && many < p->uses.edges) /* 41 of each edge before 10 and 11 */
        return told(ZAXCLOVER_MANY_USES, many);
    if (FAULT == 86 && p->due.number == ZAXCLOVER_ODD_USES && uses_of(p, p->due.value) > 2) /* three uses with 41 */
        return told(ZAXCLOVER_MANY_USES, p->due.value);
    if (FAULT == 87 && accepted && first_unused(p) < p->uses.edges) /* an edge without uses refused */
        return told(ZAXCLOVER_ODD_USES, first_unused(p));
    if (FAULT == 88 && accepted && p->due.value == 34) /* a job without faces refused */
        return told(ZAXCLOVER_WRONG_RECORD, 0);
    if (FAULT == 89 && of_surface) /* 42 before the questions of surfaces */
        return point_by(p, permitted[0]);
    if (FAULT == 90 && of_question(p->due, ZAXCLOVER_POINTS)) /* 42 before the questions of points */
        return point_by(p, permitted[0]);
    if (FAULT == 91 && accepted) /* the fans before merging */
        return point_by(p, permitted[TABLES - 1]);
    return p->due;
}

/* What is told without regard to the output; for a body the length as if there were no room. */
static struct answer wrong_for_print(const struct print *p)
{
    if (p->due.number == ZAXCLOVER_MANY_USES)
        return wrong_at_edge(p);
    if (p->due.number == ZAXCLOVER_MANY_FANS)
        return wrong_at_point(p);
    return wrong_elsewhere(p);
}

/* What is wrong with an answer or an output that is right otherwise. */
static size_t spoil_printed(size_t number, const struct print *p, uint8_t *out, size_t *value)
{
    int of_print_shop = number == ZAXCLOVER_MANY_USES || number == ZAXCLOVER_MANY_FANS;
    if (FAULT == 92 && of_print_shop && p->out_length > 0) /* a byte written on a refusal */
        out[0] ^= 1;
    if (FAULT == 93) /* a byte written after the output */
        out[p->out_length] = 0;
    if (FAULT == 94) /* a byte read after the job */
        (void)*(volatile const uint8_t *)(p->job + p->job_length);
    if (FAULT == 95 && p->job_length > 0) /* the job changed */
        *(uint8_t *)(uintptr_t)p->job ^= 1;
    if (FAULT == 96 && number == 0) /* another body */
        out[*value - 1] ^= 1;
    if (FAULT == 97 && of_print_shop) /* a number that no refusal has */
        return 43;
    return number;
}

/* What is due, the job's uses, and its fans where pairing goes through. */
static void look(struct print *p)
{
    p->due.number = __real_zaxclover_sew_for_print(p->job, p->job_length, NULL, 0, &p->due.value);
    p->ordinary.number = __real_zaxclover_sew(p->job, p->job_length, NULL, 0, &p->ordinary.value);
    p->uses.edges = p->fan_count = 0;
    if (of_loading(p->due.number))
        return;
    count_uses(p->job, p->job_length, &p->uses);
    if (p->due.number == ZAXCLOVER_MANY_FANS)
        p->fan_count = list_fans(permitted[0], p->job, p->job_length, p->fans);
}

size_t __wrap_zaxclover_sew_for_print(const uint8_t *job, size_t job_length, uint8_t *out, size_t out_length, size_t *value)
{
    static struct print p;
    p.job = job;
    p.job_length = job_length;
    p.out_length = out_length;
    look(&p);
    struct answer a = wrong_for_print(&p);
    if (a.number == AS_ORDINARY)
        return __real_zaxclover_sew(job, job_length, out, out_length, value);
    if (a.number != p.due.number || a.value != p.due.value) {
        *value = a.value;
        return a.number;
    }
    size_t number = __real_zaxclover_sew_for_print(job, job_length, out, out_length, value);
    return spoil_printed(number, &p, out, value);
}
