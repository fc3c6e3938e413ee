#include "jobs.h"

#include <stdio.h>
#include <stdlib.h>
#include <string.h>

/* NUMBERS */

uint64_t next_number(uint64_t *state)
{
    uint64_t x = *state;
    x ^= x << 13;
    x ^= x >> 7;
    x ^= x << 17;
    *state = x;
    return x * UINT64_C(0x2545F4914F6CDD1D);
}

size_t below(uint64_t *state, size_t bound)
{
    return bound == 0 ? 0 : (size_t)((next_number(state) >> 16) % bound);
}

uint64_t job_state(uint64_t seed, uint64_t index)
{
    uint64_t z = seed * UINT64_C(0x9E3779B97F4A7C15) + index * UINT64_C(0xD1B54A32D192ED03) + 1;
    z = (z ^ (z >> 30)) * UINT64_C(0xBF58476D1CE4E5B9);
    z = (z ^ (z >> 27)) * UINT64_C(0x94D049BB133111EB);
    z ^= z >> 31;
    return z == 0 ? 1 : z;
}

uint32_t word(const uint8_t *at)
{
    return at[0] | (uint32_t)at[1] << 8 | (uint32_t)at[2] << 16 | (uint32_t)at[3] << 24;
}

static void put_word(uint8_t *at, uint32_t value)
{
    for (int i = 0; i < 4; i++)
        at[i] = (uint8_t)(value >> 8 * i);
}

/* STORED JOBS */

/* The bytes of a file, which are kept to the end of the run. */
static uint8_t *read_file(const char *name, size_t *length)
{
    FILE *file = fopen(name, "rb");
    if (file == NULL)
        return NULL;
    size_t room = 1 << 24;
    uint8_t *bytes = malloc(room);
    *length = bytes == NULL ? 0 : fread(bytes, 1, room, file);
    fclose(file);
    return bytes;
}

/* The place after the answers that stand at a place. */
static size_t skip_answers(const uint8_t *bytes, size_t at)
{
    uint32_t count = word(bytes + at);
    at += 4;
    while (count-- > 0) {
        uint32_t what = word(bytes + at);
        at += what == 13 ? 8 : 4;
        if (what == 14 || what == 15) /* a joining table comes first */
            at += 4 + word(bytes + at);
        int accepted = word(bytes + at) == 0;
        at += accepted ? 12 : 8;
        if (accepted && (what == 0 || what == 13 || what == 14 || what == 16))
            at += 4 + word(bytes + at);
    }
    return at;
}

int read_seeds(const char *name, struct seeds *seeds)
{
    size_t length;
    uint8_t *bytes = read_file(name, &length);
    if (bytes == NULL || length < 4)
        return 0;
    seeds->count = word(bytes);
    seeds->at = malloc(seeds->count * sizeof *seeds->at);
    seeds->length = malloc(seeds->count * sizeof *seeds->length);
    if (seeds->at == NULL || seeds->length == NULL)
        return 0;
    size_t at = 4;
    for (size_t i = 0; i < seeds->count; i++) {
        seeds->length[i] = word(bytes + at);
        seeds->at[i] = bytes + at + 4;
        at = skip_answers(bytes, at + 4 + seeds->length[i]);
    }
    return at == length;
}

/* FACES */

/* The place after the record at a place, by its own length; the job's end if that leads past it. */
static size_t record_end(const uint8_t *bytes, size_t length, size_t at)
{
    if (length - at < 6)
        return length;
    size_t size = 6 + (size_t)word(bytes + at);
    return size > length - at ? length : at + size;
}

/* Whether a face of five fields stands at a place. */
static int is_face(const uint8_t *bytes, size_t length, size_t at)
{
    return length - at >= 26 && word(bytes + at) == 20 && bytes[at + 4] == 4 && bytes[at + 5] == 0;
}

/* The faces met so far, by their last two fields: body and source face. */
struct met {
    size_t count;
    const uint8_t *at[256];
};

static int is_met(const struct met *met, const uint8_t *face)
{
    for (size_t i = 0; i < met->count; i++)
        if (word(met->at[i]) == word(face) && word(met->at[i] + 4) == word(face + 4))
            return 1;
    return 0;
}

size_t first_repeat(const uint8_t *bytes, size_t length)
{
    struct met met = {.count = 0};
    for (size_t at = 0; at < length && met.count < 256; at = record_end(bytes, length, at)) {
        if (!is_face(bytes, length, at))
            continue;
        if (is_met(&met, bytes + at + 18))
            return at;
        met.at[met.count++] = bytes + at + 18;
    }
    return length;
}

/* Each face that has body and source face of an earlier one gets another source face. */
static void part_faces(uint64_t *state, struct job *job)
{
    struct met met = {.count = 0};
    for (size_t at = 0; at < job->length && met.count < 256; at = record_end(job->bytes, job->length, at)) {
        if (!is_face(job->bytes, job->length, at))
            continue;
        while (is_met(&met, job->bytes + at + 18))
            put_word(job->bytes + at + 22, (uint32_t)next_number(state));
        met.at[met.count++] = job->bytes + at + 18;
    }
}

/* CHANGES */

static const struct seeds *stored;

static void insert(struct job *job, size_t at, const uint8_t *bytes, size_t length)
{
    if (job->length + length > LONGEST)
        length = LONGEST - job->length;
    memmove(job->bytes + at + length, job->bytes + at, job->length - at);
    memcpy(job->bytes + at, bytes, length);
    job->length += length;
}

static void cut_out(struct job *job, size_t at, size_t length)
{
    if (length > job->length - at)
        length = job->length - at;
    memmove(job->bytes + at, job->bytes + at + length, job->length - at - length);
    job->length -= length;
}

static void take_stored(uint64_t *state, struct job *job)
{
    size_t i = below(state, stored->count);
    job->length = stored->length[i];
    memcpy(job->bytes, stored->at[i], job->length);
}

/* The record after the one at a place, or the job's end. */
static size_t next_record(const struct job *job, size_t at)
{
    return record_end(job->bytes, job->length, at);
}

/* A record's first byte, or the job's end. */
static size_t some_record(uint64_t *state, const struct job *job)
{
    size_t records = 0;
    for (size_t at = 0; at < job->length; at = next_record(job, at))
        records++;
    size_t at = 0;
    for (size_t left = below(state, records); left > 0; left--)
        at = next_record(job, at);
    return at;
}

static void flip_bits(uint64_t *state, struct job *job)
{
    for (size_t left = 1 + below(state, 8); left > 0 && job->length > 0; left--)
        job->bytes[below(state, job->length)] ^= (uint8_t)(1u << below(state, 8));
}

static void cut(uint64_t *state, struct job *job)
{
    size_t at = below(state, 2) ? some_record(state, job) : below(state, job->length + 1);
    if (below(state, 2))
        job->length = at;
    else
        cut_out(job, at, 1 + below(state, 40));
}

/* The front of the job and the back of another, each cut at a record or anywhere. */
static void splice(uint64_t *state, struct job *job)
{
    static struct job other;
    take_stored(state, &other);
    size_t front = below(state, 4) ? some_record(state, job) : below(state, job->length + 1);
    size_t back = below(state, 4) ? some_record(state, &other) : below(state, other.length + 1);
    job->length = front;
    insert(job, front, other.bytes + back, other.length - back);
}

static uint32_t hostile(uint64_t *state)
{
    static const uint32_t values[] = {
        0, 1, 2, 3, 4, 5, 7, 8, 12, 255, 256, 257, 1023, 1024, 1025, 2047, 2048, 2049, 65530, 65535, 65536, 65537,
        0x00FFFFFF, 0x3FFFFFFF, 0x40000000, 0x7FFFFFFF, 0x80000000, 0x80000004, 0xFFFFFFF8, 0xFFFFFFFA, 0xFFFFFFFC,
        0xFFFFFFFE, 0xFFFFFFFF,
    };
    return values[below(state, sizeof values / sizeof values[0])];
}

/* A record's length, or one of its fields, becomes a count at a limit, past it, or far too large. */
static void spoil_count(uint64_t *state, struct job *job)
{
    size_t at = some_record(state, job);
    size_t fields = (next_record(job, at) - at) / 4;
    if (fields > 1 && below(state, 2))
        at += 6 + 4 * below(state, fields - 1);
    if (at + 4 <= job->length)
        put_word(job->bytes + at, hostile(state));
}

/* A field becomes another small number, so that the job is likely to load. */
static void change_field(uint64_t *state, struct job *job)
{
    size_t at = some_record(state, job);
    size_t fields = (next_record(job, at) - at) / 4;
    at += 6 + 4 * below(state, fields == 0 ? 0 : fields - 1);
    if (at + 4 <= job->length)
        put_word(job->bytes + at, (uint32_t)below(state, 1 + below(state, 12)));
}

/* Whether an answer stands at a place. */
static int is_answer(const struct job *job, size_t at)
{
    return next_record(job, at) >= at + 14 && job->bytes[at + 4] >= 7 && job->bytes[at + 5] == 0;
}

/* An answer becomes another. */
static void change_answer(uint64_t *state, struct job *job)
{
    for (int tries = 0; tries < 16; tries++) {
        size_t at = some_record(state, job);
        if (is_answer(job, at)) {
            put_word(job->bytes + next_record(job, at) - 4, (uint32_t)below(state, 3));
            return;
        }
    }
}

/* A record is dropped, repeated, or put elsewhere. */
static void move_record(uint64_t *state, struct job *job)
{
    static uint8_t copy[LONGEST];
    size_t at = some_record(state, job);
    size_t size = next_record(job, at) - at;
    size_t way = below(state, 3);
    memcpy(copy, job->bytes + at, size);
    if (way != 0)
        cut_out(job, at, size);
    if (way != 1)
        insert(job, some_record(state, job), copy, size);
}

/* A record is repeated often: past a limit, or past the longest job. */
static void repeat(uint64_t *state, struct job *job)
{
    static uint8_t copy[LONGEST];
    size_t at = some_record(state, job);
    size_t size = next_record(job, at) - at;
    memcpy(copy, job->bytes + at, size);
    for (size_t left = 1 + below(state, below(state, 8) ? 16 : 2100); left > 0; left--)
        insert(job, at, copy, size);
}

/* A face at or after a place, or the job's end. */
static size_t face_from(const struct job *job, size_t at)
{
    while (at < job->length && !is_face(job->bytes, job->length, at))
        at = next_record(job, at);
    return at;
}

/* A face gets body and source face of an earlier one, and at times a sense that is none. */
static void select_twice(uint64_t *state, struct job *job)
{
    size_t earlier = face_from(job, below(state, 2) ? 0 : some_record(state, job));
    if (earlier == job->length)
        return;
    size_t later = earlier;
    for (size_t left = 1 + below(state, below(state, 2) ? 2 : 256); left > 0; left--) {
        size_t at = face_from(job, next_record(job, later));
        if (at == job->length)
            break;
        later = at;
    }
    if (later == earlier)
        return;
    memcpy(job->bytes + later + 18, job->bytes + earlier + 18, 8);
    if (below(state, 8) == 0)
        put_word(job->bytes + later + 10 + 4 * below(state, 2), 2);
}

void put_record(struct job *job, uint32_t kind, const uint32_t *fields, size_t count)
{
    uint8_t record[6 + 4 * 16];
    put_word(record, (uint32_t)(4 * count));
    record[4] = (uint8_t)kind;
    record[5] = 0;
    for (size_t i = 0; i < count; i++)
        put_word(record + 6 + 4 * i, fields[i]);
    insert(job, job->length, record, 6 + 4 * count);
}

/* What a field is: a small number, one below two, three or five, that of a thing in the job, or a source face. */
enum sort { ANY, TWO, THREE, FIVE, VERTEX, EDGE, FACE, USE, SOURCE, SORTS };

/* A record of mostly permitted fields, by how many things of each sort there are; gives how many fields are due. */
static size_t put_some(uint64_t *state, struct job *job, uint32_t kind, const size_t *there)
{
    static const size_t lengths[] = {1, 1, 1, 4, 5, 2, 1, 3, 2, 3, 3, 5, 2, 3};
    static const enum sort sorts[14][5] = {
        {ANY}, {TWO}, {ANY}, {ANY, TWO, VERTEX, VERTEX}, {ANY, TWO, TWO, TWO, SOURCE}, {EDGE, TWO, EDGE, TWO}, {VERTEX},
        {EDGE, USE, USE, USE, USE}, {USE, FIVE}, {ANY, ANY, THREE}, {ANY, ANY, THREE}, {ANY, FACE, FACE, ANY, THREE},
        {FACE, THREE}, {FACE, FACE, THREE},
    };
    uint32_t fields[16] = {0};
    size_t count = lengths[kind] + ((kind == 5 || kind == 7) && below(state, 8) == 0 ? 2 : 0);
    for (size_t i = 0; i < count; i++) {
        enum sort sort = sorts[kind][i];
        fields[i] = sort == SOURCE ? hostile(state) : (uint32_t)below(state, there[sort] + (below(state, 60) == 0));
    }
    if (kind == 3 && below(state, 8))
        fields[2] = fields[3] = UINT32_MAX;
    if (kind == 9 || kind == 10)
        fields[1] += fields[0] + 1;
    put_record(job, kind, fields, below(state, 100) == 0 ? below(state, 16) : count);
    return count;
}

/* A job from nothing: Head, vertices, edges that are mostly rings, faces with their loops, and answers. */
static void from_nothing(uint64_t *state, struct job *job)
{
    size_t there[SORTS] = {[ANY] = 4, [TWO] = 2, [THREE] = 3, [FIVE] = 5};
    job->length = 0;
    put_some(state, job, 1, there);
    for (size_t left = below(state, 4); left > 0; left--, there[VERTEX]++)
        put_some(state, job, 2, there);
    for (size_t left = below(state, 4); left > 0; left--, there[EDGE]++)
        put_some(state, job, 3, there);
    for (size_t left = below(state, 6); left > 0; left--, there[FACE]++) {
        put_some(state, job, 4, there);
        for (size_t loops = there[EDGE] == 0 ? 0 : below(state, 3); loops > 0; loops--)
            there[USE] += put_some(state, job, 5, there) / 2;
        if (there[VERTEX] > 0 && below(state, 4) == 0)
            put_some(state, job, 6, there);
    }
    for (size_t left = below(state, 12); left > 0; left--)
        put_some(state, job, 7 + (uint32_t)below(state, 7), there);
}

/* Closed edges and rings, and what they stand on: few points, a vertex for each edge, and its first face. */
enum { MOST_CLOSED = 6 };

struct closed {
    uint32_t vertices, edges, faces, uses;
    uint32_t point[MOST_CLOSED], vertex[MOST_CLOSED], first[MOST_CLOSED];
};

static void put_points(uint64_t *state, struct job *job, struct closed *c)
{
    c->vertices = 1 + (uint32_t)below(state, MOST_CLOSED);
    for (uint32_t v = 0; v < c->vertices; v++) {
        c->point[v] = (uint32_t)below(state, 5) + (below(state, 8) == 0 ? 65536 : 0);
        put_record(job, 2, &c->point[v], 1);
    }
}

static void put_closed_edges(uint64_t *state, struct job *job, struct closed *c)
{
    c->edges = 1 + (uint32_t)below(state, MOST_CLOSED);
    for (uint32_t e = 0; e < c->edges; e++) {
        c->vertex[e] = (uint32_t)below(state, c->vertices);
        uint32_t end = below(state, 8) == 0 ? UINT32_MAX : c->vertex[e];
        uint32_t edge[] = {e, 0, end, end};
        put_record(job, 3, edge, 4);
    }
}

/* Loops of one use of an edge, by turns Same and Reversed, in faces of which most are new. */
static void put_uses(uint64_t *state, struct job *job, struct closed *c, uint32_t e, size_t uses)
{
    c->first[e] = c->faces;
    for (uint32_t i = 0; i < uses; i++, c->uses++) {
        if (c->faces == 0 || below(state, 8)) {
            uint32_t face[] = {7 + i % 2, (uint32_t)below(state, 2), 0, 0, c->faces++};
            put_record(job, 4, face, 5);
        }
        uint32_t item[] = {e, i % 2};
        put_record(job, 5, item, 2);
    }
}

/* Most of the answers about surfaces and joining. */
static void put_closed_answers(uint64_t *state, struct job *job, const struct closed *c)
{
    for (uint32_t h = 0; h < c->uses; h++) {
        uint32_t surface[] = {h, below(state, 12) ? 0 : (uint32_t)below(state, 5)};
        if (below(state, 60))
            put_record(job, 8, surface, 2);
    }
    for (uint32_t e = 0; e < c->edges; e++) {
        uint32_t singular[] = {e, c->first[e], c->first[e] + 1, c->point[c->vertex[e]], below(state, 8) != 0};
        if (c->first[e] + 1 < c->faces && below(state, 24))
            put_record(job, 11, singular, 5);
    }
}

/* Whether an edge has a first face, which is not that of an earlier edge. */
static int has_own_face(const struct closed *c, uint32_t e)
{
    return c->first[e] < c->faces && (e == 0 || c->first[e] != c->first[e - 1]);
}

/* No or yes, seldom undecided. */
static uint32_t some_verdict(uint64_t *state)
{
    return below(state, 24) ? (uint32_t)below(state, 2) : 2;
}

/* Which of the shells are outer, and which lie in which; some of it is left out. */
static void put_nesting(uint64_t *state, struct job *job, const struct closed *c)
{
    for (uint32_t e = 0; e < c->edges * c->edges; e++) {
        uint32_t probe = e / c->edges;
        uint32_t container = e % c->edges;
        uint32_t orientation[] = {c->first[probe], some_verdict(state)};
        uint32_t inside[] = {c->first[probe], c->first[container], some_verdict(state)};
        if (!has_own_face(c, probe) || !has_own_face(c, container) || below(state, 24) == 0)
            continue;
        if (probe == container)
            put_record(job, 12, orientation, 2);
        else
            put_record(job, 13, inside, 3);
    }
}

/*
 * Closed edges, and rings, at few points, most of them between two faces of their own: points with more than one fan, and
 * edges with more than two uses.
 */
static void closed_edges(uint64_t *state, struct job *job)
{
    struct closed c = {.faces = 0, .uses = 0};
    uint32_t proven = below(state, 4) != 0;
    job->length = 0;
    put_record(job, 1, &proven, 1);
    put_points(state, job, &c);
    put_closed_edges(state, job, &c);
    for (uint32_t e = 0; e < c.edges; e++)
        put_uses(state, job, &c, e, below(state, 24) ? 2 : below(state, 8));
    put_closed_answers(state, job, &c);
    if (!proven)
        put_nesting(state, job, &c);
}

/* Noise of any length. */
static void noise(uint64_t *state, struct job *job)
{
    job->length = below(state, below(state, 50) ? 64 : LONGEST);
    for (size_t i = 0; i < job->length; i++)
        job->bytes[i] = (uint8_t)next_number(state);
}

static void as_stored(uint64_t *state, struct job *job)
{
    (void)state;
    (void)job;
}

static void several(uint64_t *state, struct job *job);

struct change {
    const char *name;
    void (*make)(uint64_t *state, struct job *job);
};

static const struct change changes[] = {
    {"as stored", as_stored},
    {"bits flipped", flip_bits},
    {"cut", cut},
    {"spliced", splice},
    {"hostile count", spoil_count},
    {"field changed", change_field},
    {"answer changed", change_answer},
    {"record moved", move_record},
    {"record repeated", repeat},
    {"from nothing", from_nothing},
    {"noise", noise},
    {"face selected twice", select_twice},
    {"closed edges", closed_edges},
    {"several changes", several},
};

enum { CHANGES = sizeof changes / sizeof changes[0] };

static void several(uint64_t *state, struct job *job)
{
    for (size_t left = 2 + below(state, 4); left > 0; left--)
        changes[1 + below(state, 7)].make(state, job);
}

/*
 * Records that are copied would make many jobs select a face twice, and be refused with 45 before anything else is looked
 * at: in most jobs such faces are parted.
 */
const char *make_job(const struct seeds *seeds, uint64_t *state, struct job *job)
{
    stored = seeds;
    take_stored(state, job);
    size_t way = below(state, CHANGES);
    changes[way].make(state, job);
    if (changes[way].make != as_stored && changes[way].make != select_twice && below(state, 8))
        part_faces(state, job);
    return changes[way].name;
}
