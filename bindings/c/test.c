/*
 * Tests of the interface at its edges: null pointers with length 0, outputs exactly full and one byte short, guard
 * bytes after job, output and page; the listing and the members of every stored job; faces that are refused, faces
 * selected twice, joining tables, and sewing for a print shop.
 *
 * usage: test FILE.job VECTORS      (part P9, and the file of packed vectors)
 */
#include "jobs.h"
#include "operations.h"
#include "printshop.h"
#include "tables.h"

#include <stdio.h>
#include <stdlib.h>
#include <string.h>

enum { GUARD = 64, MARK = 0xA5 };

static int tests, failures;

static void expect(int holds, const char *name, const char *what)
{
    tests++;
    if (!holds) {
        failures++;
        fprintf(stderr, "test: %s: %s\n", name, what);
    }
}

/* So many bytes of the mark, and the guard after them. */
static uint8_t *marked(size_t length)
{
    uint8_t *bytes = malloc(length + GUARD);
    if (bytes == NULL)
        exit(2);
    memset(bytes, MARK, length + GUARD);
    return bytes;
}

static int is_marked(const uint8_t *bytes, size_t from, size_t to)
{
    for (size_t i = from; i < to; i++)
        if (bytes[i] != MARK)
            return 0;
    return 1;
}

static void test_null(void)
{
    for (int k = 0; k < OPERATIONS; k++) {
        size_t value = 77;
        size_t number = operations[k].run(NULL, 0, NULL, 0, &value);
        expect(number == ZAXCLOVER_WRONG_RECORD && value == 0, operations[k].name, "an empty job at a null pointer");
    }
    size_t start = 77;
    size_t value = 77;
    size_t number = zaxclover_loop(NULL, 0, 0, &start, &value);
    expect(number == ZAXCLOVER_WRONG_RECORD && value == 0 && start == 0, "loop", "an empty job at a null pointer");
    expect(zaxclover_list(NULL, 0, NULL, 0) == strlen("refused 3 0\n"), "list", "an empty job at a null pointer");
    expect(zaxclover_listing(0, 0, NULL, 0, NULL, 0) == 0, "listing", "no body on no page");
    expect(zaxclover_listing(3, 0, NULL, 0, NULL, 0) == strlen("refused 3 0\n"), "listing", "a refusal on no page");
}

/* An operation in so many bytes of room: the answer, and what is written and what not. */
static void test_room(const struct named *o, const uint8_t *job, size_t length, size_t needed, size_t room)
{
    uint8_t *out = marked(room);
    size_t value = 77;
    size_t number = o->run(job, length, out, room, &value);
    expect(value == needed, o->name, "the length");
    if (room < needed) {
        expect(number == ZAXCLOVER_NO_ROOM, o->name, "an output too short");
        expect(is_marked(out, 0, room + GUARD), o->name, "a refusal leaves the output");
    } else {
        expect(number == ZAXCLOVER_DONE, o->name, "an output long enough");
        expect(is_marked(out, needed, room + GUARD), o->name, "later bytes stay");
    }
    free(out);
}

static void test_rooms(const uint8_t *job, size_t length)
{
    for (int k = 0; k < OPERATIONS; k++) {
        size_t needed = 77;
        size_t number = operations[k].run(job, length, NULL, 0, &needed);
        size_t wanted = needed == 0 ? ZAXCLOVER_DONE : ZAXCLOVER_NO_ROOM;
        expect(number == wanted, operations[k].name, "no output at a null pointer");
        size_t rooms[] = {0, needed == 0 ? 0 : needed - 1, needed, needed + 1, 65536};
        for (size_t i = 0; i < sizeof rooms / sizeof rooms[0]; i++)
            test_room(&operations[k], job, length, needed, rooms[i]);
    }
}

static void test_refused(void)
{
    uint8_t *job = marked(ZAXCLOVER_JOB_BYTES + 1);
    uint8_t *out = marked(64);
    for (int k = 0; k < OPERATIONS; k++) {
        size_t value = 77;
        size_t number = operations[k].run(job, ZAXCLOVER_JOB_BYTES + 1, out, 64, &value);
        expect(number == ZAXCLOVER_JOB_TOO_LONG && value == 65536, operations[k].name, "a job too long");
        number = operations[k].run(job, 5, out, 64, &value);
        expect(number == ZAXCLOVER_CUT_SHORT && value == 0, operations[k].name, "a header cut short");
        expect(is_marked(out, 0, 64 + GUARD), operations[k].name, "a refusal leaves the output");
    }
    free(job);
    free(out);
}

static void test_loops(const uint8_t *job, size_t length)
{
    size_t start = 77;
    size_t value = 77;
    for (size_t n = 0; n < 3; n++) {
        size_t number = zaxclover_loop(job, length, n, &start, &value);
        int found = number == ZAXCLOVER_DONE && value == 16 && start >= 6 && start + value <= length;
        expect(found, "loop", "a loop of P9");
        expect(found && job[start - 2] == ZAXCLOVER_LOOP, "loop", "the payload of a loop's record");
    }
    size_t number = zaxclover_loop(job, length, 3, &start, &value);
    expect(number == ZAXCLOVER_WRONG_FIELD && value == 3 && start == 0, "loop", "a number too high");
    number = zaxclover_loop(job, length, SIZE_MAX, &start, &value);
    expect(number == ZAXCLOVER_WRONG_FIELD && value == SIZE_MAX && start == 0, "loop", "the highest number");
}

static void test_listing(const uint8_t *job, size_t length)
{
    uint8_t out[1024];
    uint8_t whole[1024];
    size_t value;
    size_t number = zaxclover_sew(job, length, out, sizeof out, &value);
    expect(out[4] == ZAXCLOVER_BODY && out[30] == 1, "sew", "the face joins of P9");
    size_t needed = zaxclover_listing(number, value, out, sizeof out, whole, sizeof whole);
    expect(needed < sizeof whole && memcmp(whole, "body 1 6 2 2 0 0 1\n", 19) == 0, "listing", "the body of P9");
    for (size_t room = 0; room <= needed + 1; room++) {
        uint8_t *page = marked(room);
        size_t shown = room < needed ? room : needed;
        expect(zaxclover_listing(number, value, out, sizeof out, page, room) == needed, "listing", "the length");
        expect(memcmp(page, whole, shown) == 0, "listing", "as much as there is room for");
        expect(is_marked(page, shown, room + GUARD), "listing", "later bytes stay");
        free(page);
    }
}

/* The listing of a job on a page of so many bytes. */
static void test_page(const uint8_t *job, size_t length, const uint8_t *due, size_t due_length, size_t room)
{
    uint8_t *page = marked(room);
    size_t shown = room < due_length ? room : due_length;
    expect(zaxclover_list(job, length, page, room) == due_length, "list", "the length");
    expect(memcmp(page, due, shown) == 0, "list", "as much as there is room for");
    expect(is_marked(page, shown, room + GUARD), "list", "later bytes stay");
    free(page);
}

/* The listing of a job is that of sewing's answer in 65,536 bytes. */
static void test_list(const uint8_t *job, size_t length)
{
    static uint8_t out[65536];
    static uint8_t due[ZAXCLOVER_LISTING];
    size_t value;
    size_t number = zaxclover_sew(job, length, out, sizeof out, &value);
    size_t needed = zaxclover_listing(number, value, out, sizeof out, due, sizeof due);
    expect(needed > 0 && needed <= sizeof due, "list", "the limit of the text");
    expect(zaxclover_list(job, length, NULL, 0) == needed, "list", "no page at a null pointer");
    size_t rooms[] = {0, 1, needed / 2, needed - 1, needed, needed + 1, sizeof due};
    for (size_t i = 0; i < sizeof rooms / sizeof rooms[0]; i++)
        test_page(job, length, due, needed, rooms[i]);
}

/* MEMBERS */

/* The place of the record after the one at a place, in a job that loads or in a body. */
static size_t after(const uint8_t *bytes, size_t at)
{
    return at + 6 + word(bytes + at);
}

static int is_kind(const uint8_t *bytes, size_t at, int kind)
{
    return bytes[at + 4] == kind && bytes[at + 5] == 0;
}

/*
 * Whether a record of members has body and source face of each selected face whose group has this lowest face, in the
 * order of the job. The groups are what the merge stage writes.
 */
static int are_members(const uint8_t *record, const uint8_t *job, size_t length, const uint8_t *groups, size_t lowest)
{
    const uint8_t *member = record + 6;
    const uint8_t *end = member + word(record);
    for (size_t at = 0; at < length; at = after(job, at)) {
        if (!is_kind(job, at, ZAXCLOVER_FACE))
            continue;
        if (word(groups + 4) == lowest) {
            if (member == end || memcmp(member, job + at + 18, 8) != 0)
                return 0;
            member += 8;
        }
        groups += 8;
    }
    return member == end;
}

/*
 * Every face of a body is followed by its members, and nothing else is, by groups as the merge stage writes them; gives
 * the number of faces.
 */
static size_t hold_groups(const uint8_t *job, size_t length, const uint8_t *body, size_t body_length,
                          const uint8_t *groups, size_t value)
{
    size_t faces = 0;
    size_t lowest = 0;
    int follow = 0;
    for (size_t at = 0; at < body_length; at = after(body, at)) {
        int found = is_kind(body, at, ZAXCLOVER_BODY_MEMBERS);
        expect(found == follow, "sew", "members directly after each face and nowhere else");
        follow = is_kind(body, at, ZAXCLOVER_BODY_FACE);
        if (!found)
            continue;
        while (8 * lowest < value && word(groups + 8 * lowest + 4) != lowest)
            lowest++;
        expect(are_members(body + at, job, length, groups, lowest), "sew", "the members of a face");
        lowest++;
        faces++;
    }
    expect(!follow, "sew", "members after the last face");
    for (; 8 * lowest < value; lowest++)
        expect(word(groups + 8 * lowest + 4) != lowest, "sew", "a face for each group");
    return faces;
}

/* The groups of a body that is sewn without a table are those of the merge stage. */
static size_t test_members(const uint8_t *job, size_t length, const uint8_t *body, size_t body_length)
{
    static uint8_t groups[8 * ZAXCLOVER_FACES];
    size_t value;
    size_t number = zaxclover_merge_stage(job, length, groups, sizeof groups, &value);
    expect(number == ZAXCLOVER_DONE, "merge", "the groups of a job that is sewn");
    if (number != ZAXCLOVER_DONE)
        return 0;
    return hold_groups(job, length, body, body_length, groups, value);
}

/* A job or body by its records, a line each. */
struct line {
    uint32_t kind;
    size_t count;
    uint32_t fields[6];
};

static const uint8_t *put_lines(struct job *job, const struct line *lines, size_t count)
{
    job->length = 0;
    for (size_t i = 0; i < count; i++)
        put_record(job, lines[i].kind, lines[i].fields, lines[i].count);
    return job->bytes;
}

/* The members of a job's faces are these lines and no others. */
static void hold_members(const char *name, const uint8_t *job, size_t length, const struct line *lines, size_t count)
{
    static struct job due;
    uint8_t out[1024];
    size_t value;
    size_t number = zaxclover_sew(job, length, out, sizeof out, &value);
    expect(number == ZAXCLOVER_DONE, name, "a job that is sewn");
    if (number != ZAXCLOVER_DONE)
        return;
    const uint8_t *left = put_lines(&due, lines, count);
    for (size_t at = 0; at < value; at = after(out, at)) {
        size_t size = after(out, at) - at;
        if (!is_kind(out, at, ZAXCLOVER_BODY_MEMBERS))
            continue;
        int same = size <= (size_t)(due.bytes + due.length - left) && memcmp(out + at, left, size) == 0;
        expect(same, name, "the members of a face");
        left += same ? size : 0;
    }
    expect(left == due.bytes + due.length, name, "the members of each face");
}

/* Every operation, each loop request and the listing refuse a job. */
static void hold_refused(const char *name, const struct job *job, size_t due, size_t place)
{
    static const size_t loops[] = {0, 1, 7, ZAXCLOVER_LOOPS, SIZE_MAX};
    uint8_t *out = marked(64);
    char line[64];
    for (int k = 0; k < OPERATIONS; k++) {
        size_t value = 77;
        size_t number = operations[k].run(job->bytes, job->length, out, 64, &value);
        expect(number == due && value == place, operations[k].name, name);
        number = operations[k].run(job->bytes, job->length, NULL, 0, &value);
        expect(number == due && value == place, operations[k].name, name);
    }
    for (int k = 0; k < TABLE_OPERATIONS; k++)
        for (int i = 0; i < TABLES; i++) {
            size_t value = 77;
            size_t number = table_operations[k].run(permitted[i], ZAXCLOVER_TABLE_BYTES, job->bytes, job->length, out, 64,
                                                    &value);
            expect(number == due && value == place, table_operations[k].name, name);
        }
    for (size_t i = 0; i < sizeof loops / sizeof loops[0]; i++) {
        size_t start = 77;
        size_t value = 77;
        size_t number = zaxclover_loop(job->bytes, job->length, loops[i], &start, &value);
        expect(number == due && value == place && start == 0, "loop", name);
    }
    expect(is_marked(out, 0, 64 + GUARD), name, "a refusal leaves the output");
    size_t length = (size_t)snprintf(line, sizeof line, "refused %zu %zu\n", due, place);
    int listed = zaxclover_list(job->bytes, job->length, out, 64) == length && memcmp(out, line, length) == 0;
    expect(listed, "list", name);
    free(out);
}

#define LINES(lines) lines, sizeof lines / sizeof lines[0]

/* Request Seven, with the jobs of compare/parts/requests/seven-three-members, seven-three-fields and seven-body-two. */
static void test_faces(const uint8_t *p9, size_t length)
{
    static struct job job;
    static const struct line of_p9[] = {{29, 4, {0, 0, 0, 1}}, {29, 2, {0, 2}}};
    static const struct line three[] = {
        {ZAXCLOVER_HEAD, 1, {1}},
        {ZAXCLOVER_VERTEX, 1, {4}},
        {ZAXCLOVER_EDGE, 4, {5, 0, ZAXCLOVER_NONE, ZAXCLOVER_NONE}},
        {ZAXCLOVER_EDGE, 4, {6, 0, ZAXCLOVER_NONE, ZAXCLOVER_NONE}},
        {ZAXCLOVER_EDGE, 4, {9, 0, ZAXCLOVER_NONE, ZAXCLOVER_NONE}},
        {ZAXCLOVER_FACE, 5, {8, 0, 0, 1, 0}},
        {ZAXCLOVER_LOOP, 2, {2, 1}},
        {ZAXCLOVER_FACE, 5, {7, 0, 0, 1, 9}},
        {ZAXCLOVER_LOOP, 2, {0, 0}},
        {ZAXCLOVER_LOOP, 2, {2, 0}},
        {ZAXCLOVER_FACE, 5, {7, 0, 0, 0, UINT32_MAX}},
        {ZAXCLOVER_LOOP, 2, {1, 1}},
        {ZAXCLOVER_VERTEX_LOOP, 1, {0}},
        {ZAXCLOVER_FACE, 5, {7, 0, 0, 0, 3}},
        {ZAXCLOVER_LOOP, 2, {0, 1}},
        {ZAXCLOVER_LOOP, 2, {1, 0}},
        {ZAXCLOVER_SURFACE, 2, {0, 0}},
        {ZAXCLOVER_SURFACE, 2, {1, 1}},
        {ZAXCLOVER_SURFACE, 2, {3, 1}},
    };
    static const struct line of_three[] = {{29, 2, {1, 0}}, {29, 6, {1, 9, 0, UINT32_MAX, 0, 3}}};
    static const struct line older[] = {{ZAXCLOVER_HEAD, 1, {1}}, {ZAXCLOVER_FACE, 3, {7, 0, 0}}};
    static const struct line body_two[] = {
        {ZAXCLOVER_HEAD, 1, {1}},
        {ZAXCLOVER_FACE, 5, {7, 0, 0, 0, 0}},
        {ZAXCLOVER_FACE, 5, {8, 0, 0, 2, 1}},
    };
    expect(ZAXCLOVER_VERSION == 2, "header", "the version of the format");
    expect(ZAXCLOVER_BODY_MEMBERS == 29, "header", "the kind of members");
    hold_members("P9", p9, length, LINES(of_p9));
    put_lines(&job, LINES(three));
    hold_members("three members", job.bytes, job.length, LINES(of_three));
    put_lines(&job, LINES(older));
    hold_refused("a face of three fields", &job, ZAXCLOVER_WRONG_RECORD, 10);
    put_lines(&job, LINES(body_two));
    hold_refused("a face of body 2", &job, ZAXCLOVER_WRONG_FIELD, 36);
}

/* A FACE SELECTED TWICE */

/* Head, and faces without loops by surface, senses, body and source face. */
static void put_faces(struct job *job, const uint32_t (*faces)[5], size_t count)
{
    uint32_t one = 1;
    job->length = 0;
    put_record(job, ZAXCLOVER_HEAD, &one, 1);
    for (size_t i = 0; i < count; i++)
        put_record(job, ZAXCLOVER_FACE, faces[i], 5);
}

/* The byte where face n starts in such a job. */
static size_t face_place(size_t n)
{
    return 10 + 26 * n;
}

/* A job that is sewn into faces without loops: each keeps its own body and source. */
static void hold_sewn(const char *name, const struct job *job)
{
    static uint8_t out[65536];
    size_t value;
    size_t number = zaxclover_sew(job->bytes, job->length, out, sizeof out, &value);
    expect(number == ZAXCLOVER_DONE, name, "a job that is sewn");
    if (number == ZAXCLOVER_DONE)
        test_members(job->bytes, job->length, out, value);
}

#define FACES(faces) faces, sizeof faces / sizeof faces[0]

/* What makes two faces one: body and source face, both whole, and nothing else. */
static void test_same_face(void)
{
    static struct job job;
    static const uint32_t twins[][2][5] = {
        {{7, 0, 0, 0, 5}, {7, 1, 0, 0, 5}}, {{7, 0, 0, 0, 5}, {7, 0, 0, 0, 5}}, {{7, 0, 0, 0, 5}, {7, 0, 1, 0, 5}},
        {{7, 1, 1, 1, 5}, {8, 0, 0, 1, 5}}, {{7, 0, 0, 0, 0}, {9, 0, 0, 0, 0}}, {{7, 0, 0, 1, 0}, {7, 0, 0, 1, 0}},
        {{7, 0, 0, 0, UINT32_MAX}, {7, 0, 0, 0, UINT32_MAX}}, {{0, 0, 0, 1, UINT32_MAX}, {7, 0, 0, 1, UINT32_MAX}},
        {{7, 0, 0, 0, 65536}, {7, 0, 0, 0, 65536}}, {{7, 0, 0, 1, 2147483648}, {7, 0, 0, 1, 2147483648}},
    };
    static const uint32_t others[][2][5] = {
        {{7, 0, 0, 0, 5}, {7, 0, 0, 1, 5}}, {{7, 0, 0, 1, 0}, {7, 0, 0, 0, 0}}, {{7, 0, 0, 0, 0}, {7, 0, 0, 0, 1}},
        {{7, 0, 0, 0, 1}, {7, 0, 0, 0, 65537}}, {{7, 0, 0, 0, 0}, {7, 0, 0, 0, UINT32_MAX}},
        {{7, 0, 0, 0, 1}, {7, 0, 0, 1, 0}}, {{7, 0, 0, 1, 9}, {7, 0, 0, 1, 265}},
        {{7, 0, 0, 0, 9}, {7, 0, 0, 0, 16777225}}, {{7, 0, 0, 0, 0}, {7, 0, 0, 0, 2147483648}},
    };
    expect(ZAXCLOVER_SELECTED_TWICE == 45, "header", "the number of a face selected twice");
    for (size_t i = 0; i < sizeof twins / sizeof twins[0]; i++) {
        put_faces(&job, FACES(twins[i]));
        hold_refused("a face selected twice", &job, ZAXCLOVER_SELECTED_TWICE, 36);
    }
    for (size_t i = 0; i < sizeof others / sizeof others[0]; i++) {
        put_faces(&job, FACES(others[i]));
        hold_sewn("two faces", &job);
    }
}

/* The first of several repeats, by the record that completes it. */
static void test_first_repeat(void)
{
    static struct job job;
    static uint32_t faces[ZAXCLOVER_FACES + 1][5];
    static const uint32_t apart[][5] = {{7, 0, 0, 0, 5}, {7, 0, 0, 0, 6}, {7, 0, 0, 0, 5}};
    static const uint32_t together[][5] = {{7, 0, 0, 0, 5}, {7, 0, 0, 0, 6}, {7, 0, 0, 0, 6}};
    static const uint32_t both[][5] = {{7, 0, 0, 0, 5}, {7, 0, 0, 1, 5}, {7, 0, 0, 0, 5}};
    static const uint32_t nested[][5] = {{7, 0, 0, 0, 5}, {7, 0, 0, 0, 6}, {7, 0, 0, 0, 6}, {7, 0, 0, 0, 5}};
    put_faces(&job, FACES(apart));
    hold_refused("the face before the last", &job, ZAXCLOVER_SELECTED_TWICE, 62);
    put_faces(&job, FACES(together));
    hold_refused("the last face", &job, ZAXCLOVER_SELECTED_TWICE, 62);
    put_faces(&job, FACES(both));
    hold_refused("a face of the other body between", &job, ZAXCLOVER_SELECTED_TWICE, 62);
    put_faces(&job, FACES(nested));
    hold_refused("two repeats", &job, ZAXCLOVER_SELECTED_TWICE, 62);
    for (uint32_t i = 0; i <= ZAXCLOVER_FACES; i++) {
        uint32_t face[] = {7, 0, 0, i % 2, 1000 - i};
        memcpy(faces[i], face, sizeof face);
    }
    put_faces(&job, faces, ZAXCLOVER_FACES);
    hold_sewn("256 faces", &job);
    for (size_t i = 0; i < ZAXCLOVER_FACES - 1; i += 17) {
        memcpy(faces[ZAXCLOVER_FACES - 1], faces[i], sizeof faces[i]);
        put_faces(&job, faces, ZAXCLOVER_FACES);
        hold_refused("the 256th face", &job, ZAXCLOVER_SELECTED_TWICE, face_place(ZAXCLOVER_FACES - 1));
    }
    faces[ZAXCLOVER_FACES - 1][4] = 1;
    memcpy(faces[ZAXCLOVER_FACES], faces[3], sizeof faces[3]);
    put_faces(&job, FACES(faces));
    hold_refused("the 257th face", &job, ZAXCLOVER_LIMIT_PASSED, face_place(ZAXCLOVER_FACES));
}

/* 45 after what else is wrong with the record and after earlier records, before later ones. */
static void test_order(void)
{
    static struct job job;
    static const uint32_t bad_fields[][2][5] = {
        {{7, 0, 0, 0, 9}, {7, 0, 2, 0, 9}}, {{7, 0, 0, 0, 9}, {7, 2, 0, 0, 9}}, {{7, 0, 0, 1, 9}, {7, 0, 3, 1, 9}},
    };
    static const struct line head = {ZAXCLOVER_HEAD, 1, {1}};
    static const struct line edge = {ZAXCLOVER_EDGE, 4, {5, 0, ZAXCLOVER_NONE, ZAXCLOVER_NONE}};
    static const struct line open = {ZAXCLOVER_EDGE, 4, {5, 0, 0, 1}};
    static const struct line first = {ZAXCLOVER_VERTEX, 1, {3}};
    static const struct line second = {ZAXCLOVER_VERTEX, 1, {4}};
    static const struct line face = {ZAXCLOVER_FACE, 5, {7, 0, 0, 0, 9}};
    static const struct line broken = {ZAXCLOVER_LOOP, 2, {0, 0}};
    static const struct line points = {ZAXCLOVER_POINTS, 3, {3, 4, 0}};
    static const struct line unknown = {14, 0, {0}};
    static const struct line no_sense = {ZAXCLOVER_LOOP, 2, {0, 2}};
    static const struct line short_face = {ZAXCLOVER_FACE, 4, {7, 0, 0, 0}};
    const struct line before_joint[] = {head, first, second, open, face, face, broken};
    const struct line after_joint[] = {head, first, second, open, face, broken, face};
    const struct line before_answers[] = {head, face, face, points, points};
    const struct line before_unknown[] = {head, face, face, unknown};
    const struct line before_field[] = {head, edge, face, face, no_sense};
    const struct line after_field[] = {head, edge, face, no_sense, face};
    const struct line after_answer[] = {head, face, points, face};
    const struct line fields_missing[] = {head, face, short_face};
    for (size_t i = 0; i < sizeof bad_fields / sizeof bad_fields[0]; i++) {
        put_faces(&job, FACES(bad_fields[i]));
        hold_refused("fields first", &job, ZAXCLOVER_WRONG_FIELD, 36);
    }
    put_lines(&job, LINES(before_joint));
    hold_refused("before a loop that does not join", &job, ZAXCLOVER_SELECTED_TWICE, 78);
    put_lines(&job, LINES(after_joint));
    hold_refused("after a loop that does not join", &job, ZAXCLOVER_BROKEN_JOINT, 78);
    put_lines(&job, LINES(before_answers));
    hold_refused("before a question answered twice", &job, ZAXCLOVER_SELECTED_TWICE, 36);
    put_lines(&job, LINES(before_unknown));
    hold_refused("before an unknown kind", &job, ZAXCLOVER_SELECTED_TWICE, 36);
    job.length -= 3;
    hold_refused("before a record cut short", &job, ZAXCLOVER_SELECTED_TWICE, 36);
    put_lines(&job, LINES(before_field));
    hold_refused("before a wrong field", &job, ZAXCLOVER_SELECTED_TWICE, 58);
    put_lines(&job, LINES(after_field));
    hold_refused("after a wrong field", &job, ZAXCLOVER_WRONG_FIELD, 58);
    put_lines(&job, LINES(after_answer));
    hold_refused("after an answer", &job, ZAXCLOVER_WRONG_RECORD, 54);
    put_lines(&job, LINES(fields_missing));
    hold_refused("four fields", &job, ZAXCLOVER_WRONG_RECORD, 36);
    put_lines(&job, before_answers, 3);
    job.length--;
    hold_refused("the later face cut short", &job, ZAXCLOVER_CUT_SHORT, 36);
}

/* JOINING TABLES */

/* A table is refused, whatever job and output are: P9, and jobs that are refused without a table. */
static void hold_wrong(const uint8_t *table, size_t length, size_t place, const uint8_t *p9, size_t p9_length)
{
    static uint8_t long_job[70000];
    static struct job twice, uneven;
    static const uint32_t faces[][5] = {{7, 0, 0, 0, 5}, {7, 0, 0, 0, 5}};
    static const struct line one_use[] = {
        {ZAXCLOVER_HEAD, 1, {1}}, {ZAXCLOVER_EDGE, 4, {5, 0, ZAXCLOVER_NONE, ZAXCLOVER_NONE}},
        {ZAXCLOVER_FACE, 5, {7, 0, 0, 0, 0}}, {ZAXCLOVER_LOOP, 2, {0, 0}},
    };
    put_faces(&twice, FACES(faces));
    put_lines(&uneven, LINES(one_use));
    const struct {
        const uint8_t *bytes;
        size_t length;
    } jobs[] = {
        {p9, p9_length}, {p9, 5}, {NULL, 0}, {long_job, sizeof long_job}, {twice.bytes, twice.length},
        {uneven.bytes, uneven.length},
    };
    uint8_t *out = marked(4096);
    size_t seen = 77;
    expect(is_refused(table, length, &seen) && seen == place, "tables.c", "a table that is not permitted");
    for (int k = 0; k < TABLE_OPERATIONS; k++)
        for (size_t i = 0; i < sizeof jobs / sizeof jobs[0]; i++) {
            size_t value = 77;
            size_t number = table_operations[k].run(table, length, jobs[i].bytes, jobs[i].length, out, 4096, &value);
            int refused = number == ZAXCLOVER_WRONG_TABLE && value == place;
            expect(refused, table_operations[k].name, "a table that is not permitted");
            expect(is_marked(out, 0, 4096 + GUARD), table_operations[k].name, "a refusal leaves the output");
            value = 77;
            number = table_operations[k].run(table, length, jobs[i].bytes, jobs[i].length, NULL, 0, &value);
            refused = number == ZAXCLOVER_WRONG_TABLE && value == place;
            expect(refused, table_operations[k].name, "a table that is not permitted, and no room");
        }
    free(out);
}

/* Of each length but 4, with entries that would be permitted, that would not, and the full table at the start. */
static void test_wrong_lengths(const uint8_t *p9, size_t p9_length)
{
    static const size_t lengths[] = {0, 1, 2, 3, 5, 6, 7, 8, 300};
    expect(ZAXCLOVER_WRONG_TABLE == 48, "header", "the number of a table that is not permitted");
    hold_wrong(NULL, 0, 4, p9, p9_length);
    for (size_t i = 0; i < sizeof lengths / sizeof lengths[0]; i++) {
        uint8_t *table = marked(lengths[i]);
        hold_wrong(table, lengths[i], 4, p9, p9_length);
        memset(table, 0, lengths[i]);
        hold_wrong(table, lengths[i], 4, p9, p9_length);
        memcpy(table, permitted[0], lengths[i] < ZAXCLOVER_TABLE_BYTES ? lengths[i] : ZAXCLOVER_TABLE_BYTES);
        hold_wrong(table, lengths[i], 4, p9, p9_length);
        expect(is_marked(table, lengths[i], lengths[i] + GUARD), "tables", "the guard after a table");
        free(table);
    }
}

/* Each entry that is not permitted, at each place and beside each permitted table; and several at once. */
static void test_wrong_entries(const uint8_t *p9, size_t p9_length)
{
    static const uint8_t wrong[] = {2, 3, 49, 128, 255};
    static const struct {
        uint8_t table[ZAXCLOVER_TABLE_BYTES];
        size_t place;
    } several[] = {
        {{1, 1, 0, 2}, 1}, {{1, 1, 1, 1}, 1}, {{1, 0, 1, 2}, 2}, {{1, 0, 1, 1}, 2}, {{0, 1, 1, 0}, 1}, {{2, 1, 1, 2}, 0},
        {{0, 0, 0, 2}, 3}, {{255, 255, 255, 255}, 0}, {{'1', '0', '0', '1'}, 0}, {{1, 0, 0, '1'}, 3}, {{1, 2, 1, 1}, 1},
    };
    for (size_t t = 0; t < TABLES; t++)
        for (size_t i = 0; i < ZAXCLOVER_TABLE_BYTES; i++) {
            uint8_t table[ZAXCLOVER_TABLE_BYTES];
            for (size_t k = 0; k < sizeof wrong; k++) {
                memcpy(table, permitted[t], ZAXCLOVER_TABLE_BYTES);
                table[i] = wrong[k];
                hold_wrong(table, ZAXCLOVER_TABLE_BYTES, i, p9, p9_length);
            }
            table[i] = 1;
            if (i == ZAXCLOVER_AGREEING_DIFFERENT || i == ZAXCLOVER_OPPOSED_EQUAL)
                hold_wrong(table, ZAXCLOVER_TABLE_BYTES, i, p9, p9_length);
        }
    for (size_t i = 0; i < sizeof several / sizeof several[0]; i++)
        hold_wrong(several[i].table, ZAXCLOVER_TABLE_BYTES, several[i].place, p9, p9_length);
}

/* With a permitted table the job is looked at: as long as may be, empty, too long. */
static void test_job_after_table(void)
{
    static uint8_t long_job[ZAXCLOVER_JOB_BYTES + 1];
    for (int k = 0; k < TABLE_OPERATIONS; k++)
        for (int t = 0; t < TABLES; t++) {
            const struct named_with_table *o = &table_operations[k];
            size_t place = 77;
            size_t value = 77;
            expect(!is_refused(permitted[t], ZAXCLOVER_TABLE_BYTES, &place), "tables.c", "a permitted table");
            size_t number = o->run(permitted[t], ZAXCLOVER_TABLE_BYTES, NULL, 0, NULL, 0, &value);
            expect(number == ZAXCLOVER_WRONG_RECORD && value == 0, o->name, "an empty job at a null pointer");
            number = o->run(permitted[t], ZAXCLOVER_TABLE_BYTES, long_job, sizeof long_job, NULL, 0, &value);
            expect(number == ZAXCLOVER_JOB_TOO_LONG && value == 65536, o->name, "a job too long");
            number = o->run(permitted[t], ZAXCLOVER_TABLE_BYTES, long_job, 5, NULL, 0, &value);
            expect(number == ZAXCLOVER_CUT_SHORT && value == 0, o->name, "a header cut short");
        }
}

/* Sewing, or the walks, with a table: these bytes, in an output just as long, one longer, and one too short. */
static void hold_made(int k, const uint8_t *table, const uint8_t *job, size_t length, const uint8_t *due, size_t due_length)
{
    const struct named_with_table *o = &table_operations[k];
    size_t rooms[] = {0, due_length - 1, due_length, due_length + 1};
    for (size_t i = 0; i < sizeof rooms / sizeof rooms[0]; i++) {
        uint8_t *out = marked(rooms[i]);
        size_t value = 77;
        size_t written = rooms[i] < due_length ? 0 : due_length;
        size_t number = o->run(table, ZAXCLOVER_TABLE_BYTES, job, length, out, rooms[i], &value);
        expect(number == (written == 0 ? ZAXCLOVER_NO_ROOM : ZAXCLOVER_DONE), o->name, "the number");
        expect(value == due_length, o->name, "the length");
        expect(memcmp(out, due, written) == 0, o->name, "the output");
        expect(is_marked(out, written, rooms[i] + GUARD), o->name, "later bytes stay");
        free(out);
    }
}

/* The walks of P9, by hand: its only join is of agreeing surfaces, whose senses are equal. */
static void test_tables_of_p9(const uint8_t *p9, size_t length)
{
    static const uint32_t joined[] = {0, 3, 1, 3, 0, 1, 4, 5, 0, 5, 4, 0};
    static const uint32_t apart[] = {0, 1, 0, 1, 0, 0, 2, 3, 0, 3, 2, 0, 4, 5, 0, 5, 4, 0};
    for (int t = 0; t < TABLES; t++) {
        const uint32_t *fields = permitted[t][0] == 1 ? joined : apart;
        size_t count = permitted[t][0] == 1 ? 12 : 18;
        uint8_t walks[72];
        for (size_t i = 0; i < 4 * count; i++)
            walks[i] = (uint8_t)(fields[i / 4] >> 8 * (i % 4));
        hold_made(1, permitted[t], p9, length, walks, 4 * count);
    }
}

/* A ring between two faces on opposed surfaces whose stored senses differ, sewn with each table. */
static void test_opposed(void)
{
    static struct job job, due;
    static const struct line opposed[] = {
        {ZAXCLOVER_HEAD, 1, {1}},
        {ZAXCLOVER_EDGE, 4, {5, 0, ZAXCLOVER_NONE, ZAXCLOVER_NONE}},
        {ZAXCLOVER_FACE, 5, {7, 0, 0, 0, 0}},
        {ZAXCLOVER_LOOP, 2, {0, 0}},
        {ZAXCLOVER_FACE, 5, {8, 1, 0, 0, 1}},
        {ZAXCLOVER_LOOP, 2, {0, 1}},
        {ZAXCLOVER_SURFACE, 2, {0, 2}},
    };
    static const struct line joined[] = {
        {ZAXCLOVER_BODY_FACE, 2, {7, 0}}, {ZAXCLOVER_BODY_MEMBERS, 4, {0, 0, 0, 1}},
        {ZAXCLOVER_BODY_LUMP, 0, {0}}, {ZAXCLOVER_BODY_SHELL, 1, {0}},
    };
    static const struct line apart[] = {
        {ZAXCLOVER_BODY_EDGE, 4, {5, 0, ZAXCLOVER_NONE, ZAXCLOVER_NONE}},
        {ZAXCLOVER_BODY_FACE, 2, {7, 0}}, {ZAXCLOVER_BODY_MEMBERS, 2, {0, 0}}, {ZAXCLOVER_BODY_LOOP, 2, {0, 0}},
        {ZAXCLOVER_BODY_FACE, 2, {8, 1}}, {ZAXCLOVER_BODY_MEMBERS, 2, {0, 1}}, {ZAXCLOVER_BODY_LOOP, 2, {0, 1}},
        {ZAXCLOVER_BODY_LUMP, 0, {0}}, {ZAXCLOVER_BODY_SHELL, 2, {0, 1}},
    };
    static const uint32_t body_joined[] = {1, 2, 2, 0, 0, 0, 1};
    static const uint32_t body_apart[] = {1, 2, 0, 0, 0, 0, 0};
    put_lines(&job, LINES(opposed));
    for (int t = 0; t < TABLES; t++) {
        int joins = permitted[t][3] == 1;
        const struct line *lines = joins ? joined : apart;
        size_t count = joins ? sizeof joined / sizeof joined[0] : sizeof apart / sizeof apart[0];
        due.length = 0;
        put_record(&due, ZAXCLOVER_BODY, joins ? body_joined : body_apart, 7);
        for (size_t i = 0; i < count; i++)
            put_record(&due, lines[i].kind, lines[i].fields, lines[i].count);
        hold_made(0, permitted[t], job.bytes, job.length, due.bytes, due.length);
    }
}

/* The full table: answer and output are those without a table, in a room that suffices and in none. */
static void hold_full(const uint8_t *job, size_t length)
{
    static uint8_t out[65536], ordinary[65536];
    for (int k = 0; k < TABLE_OPERATIONS; k++)
        for (size_t room = 0; room <= sizeof out; room += sizeof out) {
            size_t value = 77;
            size_t due = 78;
            memset(out, MARK, sizeof out);
            memset(ordinary, MARK, sizeof ordinary);
            size_t number = table_operations[k].run(permitted[0], ZAXCLOVER_TABLE_BYTES, job, length, out, room, &value);
            size_t same = table_operations[k].ordinary(job, length, ordinary, room, &due);
            expect(number == same && value == due, table_operations[k].name, "the full table, the answer");
            expect(memcmp(out, ordinary, sizeof out) == 0, table_operations[k].name, "the full table, the output");
        }
}

/* Sewing with a permitted table: the body's numbers, and its members by face, are those of merging by the table. */
static int hold_sewn_by(const uint8_t *table, const uint8_t *job, size_t length, const struct merged *due)
{
    static uint8_t out[65536];
    static uint8_t groups[8 * ZAXCLOVER_FACES];
    size_t value;
    if (zaxclover_sew_with_table(table, ZAXCLOVER_TABLE_BYTES, job, length, out, sizeof out, &value) != ZAXCLOVER_DONE)
        return 0;
    const uint8_t *body = out + 6;
    expect(word(body + 4) == due->uses && word(body + 8) == due->removed, "sew with a table", "uses and removed uses");
    expect(word(body + 12) == due->passed && word(body + 24) == due->joins, "sew with a table", "passed over, face joins");
    for (size_t face = 0; face < due->faces; face++)
        for (size_t i = 0; i < 4; i++)
            groups[8 * face + 4 + i] = (uint8_t)(due->group[face] >> 8 * i);
    size_t faces = hold_groups(job, length, out, value, groups, 8 * due->faces);
    expect(faces + due->joins == due->faces, "sew with a table", "faces and face joins");
    return 1;
}

/* The refusals that no table changes: those before joining, and 30, which only 20 and 21 of kind 9 come before. */
static void hold_refusals(const uint8_t *table, const uint8_t *job, size_t length)
{
    static uint8_t out[65536];
    for (int k = 0; k < TABLE_OPERATIONS; k++) {
        const struct named_with_table *o = &table_operations[k];
        size_t due, value;
        size_t wanted = o->ordinary(job, length, out, sizeof out, &due);
        size_t number = o->run(table, ZAXCLOVER_TABLE_BYTES, job, length, out, sizeof out, &value);
        int before = before_joining(wanted, due) || before_joining(number, value);
        int of_points = (number == ZAXCLOVER_UNANSWERED || number == ZAXCLOVER_UNDECIDED) && value == ZAXCLOVER_POINTS;
        if (before || (wanted == ZAXCLOVER_PAIRS_IN_BOUNDARY && !of_points))
            expect(number == wanted && value == due, o->name, "a refusal that no table changes");
    }
}

/* A stored job with each permitted table; gives how many lesser ones join less than the full one in a body. */
static size_t test_tables(const uint8_t *job, size_t length)
{
    static struct merged due;
    static uint8_t walks[12 * ZAXCLOVER_USES];
    size_t differing = 0;
    size_t joins = 0;
    hold_full(job, length);
    for (int t = 0; t < TABLES; t++) {
        size_t value;
        size_t number = zaxclover_walk_stage_with_table(permitted[t], ZAXCLOVER_TABLE_BYTES, job, length, walks,
                                                        sizeof walks, &value);
        hold_refusals(permitted[t], job, length);
        if (number != ZAXCLOVER_DONE)
            continue;
        merge_by(permitted[t], job, length, &due);
        expect(value == due.walks_length, "walk with a table", "how many walks");
        expect(memcmp(walks, due.walks, due.walks_length) == 0, "walk with a table", "the walks");
        int sewn = hold_sewn_by(permitted[t], job, length, &due);
        joins = t == 0 ? due.joins : joins;
        differing += t != 0 && sewn && due.joins < joins;
    }
    return differing;
}

/* A PRINT SHOP */

/* Sewing for a print shop refuses a job, whatever the room is, and leaves the output. */
static void hold_not_printed(const char *name, const struct job *job, size_t due, size_t place)
{
    static const size_t rooms[] = {0, 1, 33, 4096};
    for (size_t i = 0; i < sizeof rooms / sizeof rooms[0]; i++) {
        uint8_t *out = marked(rooms[i]);
        size_t value = 77;
        size_t number = zaxclover_sew_for_print(job->bytes, job->length, out, rooms[i], &value);
        expect(number == due, name, "the number of a job that is not for print");
        expect(value == place, name, "the place of a job that is not for print");
        expect(is_marked(out, 0, rooms[i] + GUARD), name, "a refusal leaves the output");
        free(out);
    }
}

/* A job that is sewn for a print shop: the body is the ordinary one, in each room. */
static void hold_printed(const char *name, const struct job *job)
{
    static uint8_t due[65536], out[65536];
    size_t needed = 77;
    size_t value = 77;
    size_t number = zaxclover_sew(job->bytes, job->length, due, sizeof due, &needed);
    expect(number == ZAXCLOVER_DONE, name, "a job that is sewn ordinarily");
    number = zaxclover_sew_for_print(job->bytes, job->length, out, sizeof out, &value);
    expect(number == ZAXCLOVER_DONE, name, "a job that is sewn for a print shop");
    if (number != ZAXCLOVER_DONE || value != needed)
        return;
    expect(memcmp(out, due, needed) == 0, name, "the ordinary body");
    size_t rooms[] = {0, 1, needed - 1, needed, needed + 1};
    for (size_t i = 0; i < sizeof rooms / sizeof rooms[0]; i++)
        test_room(&operations[FOR_PRINT], job->bytes, job->length, needed, rooms[i]);
}

/* What sewing for a print shop makes of a job: 0, or a refusal. */
static void hold_for_print(const char *name, const struct job *job, size_t due, size_t place)
{
    if (due == ZAXCLOVER_DONE)
        hold_printed(name, job);
    else
        hold_not_printed(name, job, due, place);
}

/* So many loops of one use. */
static void put_loops(struct job *job, uint32_t edge, uint32_t sense, size_t count)
{
    const uint32_t item[] = {edge, sense};
    for (size_t i = 0; i < count; i++)
        put_record(job, ZAXCLOVER_LOOP, item, 2);
}

enum { RINGS = 2 };

/* A face with rings, each so many times Same and Reversed, as read; the face may be selected Reversed. */
static void put_rings(struct job *job, size_t counts[RINGS][2], uint32_t selected)
{
    const uint32_t head[] = {1};
    const uint32_t ring[] = {5, 0, ZAXCLOVER_NONE, ZAXCLOVER_NONE};
    const uint32_t face[] = {7, 0, selected, 0, 0};
    job->length = 0;
    put_record(job, ZAXCLOVER_HEAD, head, 1);
    for (size_t e = 0; e < RINGS; e++)
        put_record(job, ZAXCLOVER_EDGE, ring, 4);
    put_record(job, ZAXCLOVER_FACE, face, 5);
    for (size_t e = 0; e < RINGS; e++) {
        put_loops(job, (uint32_t)e, selected, counts[e][0]);
        put_loops(job, (uint32_t)e, 1 - selected, counts[e][1]);
    }
}

/* 41 by the uses of each edge: the number after 11 and 10 for the edge, the lowest edge at fault first. */
static void test_many_uses(void)
{
    static struct job job;
    static struct {
        size_t counts[RINGS][2];
        size_t number, place;
    } rows[] = {
        {{{0, 0}, {0, 0}}, 0, 0}, {{{1, 1}, {0, 0}}, 0, 0}, {{{1, 1}, {1, 1}}, 0, 0}, {{{1, 0}, {0, 0}}, 11, 0},
        {{{2, 0}, {0, 0}}, 10, 0}, {{{0, 2}, {0, 0}}, 10, 0}, {{{2, 1}, {0, 0}}, 11, 0}, {{{3, 0}, {0, 0}}, 11, 0},
        {{{2, 2}, {0, 0}}, 41, 0}, {{{4, 0}, {0, 0}}, 41, 0}, {{{0, 4}, {0, 0}}, 41, 0}, {{{1, 3}, {0, 0}}, 41, 0},
        {{{3, 2}, {0, 0}}, 11, 0}, {{{3, 3}, {0, 0}}, 41, 0}, {{{6, 0}, {0, 0}}, 41, 0}, {{{4, 3}, {0, 0}}, 11, 0},
        {{{4, 4}, {0, 0}}, 41, 0}, {{{512, 512}, {0, 0}}, 41, 0}, {{{512, 511}, {0, 0}}, 11, 0},
        {{{0, 0}, {2, 2}}, 41, 1}, {{{1, 1}, {2, 2}}, 41, 1}, {{{1, 1}, {3, 3}}, 41, 1}, {{{1, 1}, {2, 1}}, 11, 1},
        {{{1, 1}, {0, 2}}, 10, 1}, {{{1, 0}, {2, 2}}, 11, 0}, {{{2, 0}, {2, 2}}, 10, 0}, {{{2, 1}, {2, 2}}, 11, 0},
        {{{2, 2}, {1, 0}}, 41, 0}, {{{2, 2}, {0, 2}}, 41, 0}, {{{2, 2}, {2, 2}}, 41, 0}, {{{3, 2}, {3, 3}}, 11, 0},
        {{{3, 3}, {2, 1}}, 41, 0}, {{{4, 0}, {1, 0}}, 41, 0},
    };
    expect(ZAXCLOVER_MANY_USES == 41, "header", "the number of an edge with more than two uses");
    for (size_t i = 0; i < sizeof rows / sizeof rows[0]; i++)
        for (uint32_t selected = 0; selected < 2; selected++) {
            put_rings(&job, rows[i].counts, selected);
            struct answer due = edge_fault(job.bytes, job.length);
            expect(due.number == rows[i].number && due.value == rows[i].place, "printshop.c", "the fault of an edge");
            hold_for_print("rings in a face", &job, rows[i].number, rows[i].place);
        }
}

/* Four faces round a ring: 41 whatever the radial list is, and whatever else ordinary sewing makes of the job. */
static void test_round_an_edge(void)
{
    static struct job job;
    static const struct line start[] = {
        {ZAXCLOVER_HEAD, 1, {1}}, {ZAXCLOVER_EDGE, 4, {5, 0, ZAXCLOVER_NONE, ZAXCLOVER_NONE}},
        {ZAXCLOVER_FACE, 5, {7, 0, 0, 0, 0}}, {ZAXCLOVER_LOOP, 2, {0, 0}},
        {ZAXCLOVER_FACE, 5, {8, 0, 0, 0, 1}}, {ZAXCLOVER_LOOP, 2, {0, 1}},
        {ZAXCLOVER_FACE, 5, {7, 0, 0, 0, 2}}, {ZAXCLOVER_LOOP, 2, {0, 0}},
        {ZAXCLOVER_FACE, 5, {8, 0, 0, 0, 3}}, {ZAXCLOVER_LOOP, 2, {0, 1}},
        {ZAXCLOVER_SURFACE, 2, {0, 0}}, {ZAXCLOVER_SURFACE, 2, {1, 0}},
    };
    static const struct {
        struct line radial;
        size_t number, place; /* in ordinary sewing; 0 if it is sewn */
    } rows[] = {
        {{ZAXCLOVER_RADIAL, 5, {0, 0, 1, 2, 3}}, 0, 0}, {{ZAXCLOVER_RADIAL, 1, {0}}, 21, 7},
        {{ZAXCLOVER_RADIAL, 5, {0, 0, 2, 1, 3}}, 12, 0}, {{ZAXCLOVER_RADIAL, 5, {0, 0, 1, 2, 2}}, 23, 0},
        {{ZAXCLOVER_RADIAL, 3, {0, 0, 1}}, 23, 0}, {{ZAXCLOVER_POINTS, 3, {3, 4, 0}}, 20, 7},
    };
    for (size_t i = 0; i < sizeof rows / sizeof rows[0]; i++) {
        size_t place = 77;
        put_lines(&job, LINES(start));
        put_record(&job, rows[i].radial.kind, rows[i].radial.fields, rows[i].radial.count);
        size_t number = zaxclover_sew(job.bytes, job.length, NULL, 0, &place);
        int sewn = rows[i].number == 0 && number == ZAXCLOVER_NO_ROOM;
        expect(sewn || (number == rows[i].number && place == rows[i].place), "sew", "faces round a ring");
        hold_not_printed("faces round a ring", &job, ZAXCLOVER_MANY_USES, 0);
    }
    put_lines(&job, start, 8);
    hold_not_printed("three faces round a ring", &job, ZAXCLOVER_ODD_USES, 0);
    put_lines(&job, start, 10);
    hold_not_printed("faces round a ring, no answer", &job, ZAXCLOVER_MANY_USES, 0);
}

enum { MOST_CLOSED = 8 };

/* What stands behind the faces of closed edges. */
enum answers { ALL_ANSWERS, NO_SINGULAR, NO_SURFACE };

/*
 * Closed edges at these points, each between two faces of its own, and so with a fan of its own at the point: at a vertex
 * of its own, or one vertex for each point.
 */
static void put_closed(struct job *job, const uint32_t *points, size_t count, int shared, enum answers answers)
{
    const uint32_t one = 1;
    uint32_t vertex[MOST_CLOSED];
    uint32_t vertices = 0;
    job->length = 0;
    put_record(job, ZAXCLOVER_HEAD, &one, 1);
    for (uint32_t i = 0; i < count; i++) {
        uint32_t before = 0;
        while (before < i && (!shared || points[before] != points[i]))
            before++;
        vertex[i] = before < i ? vertex[before] : vertices++;
        if (before == i)
            put_record(job, ZAXCLOVER_VERTEX, &points[i], 1);
    }
    for (uint32_t i = 0; i < count; i++)
        put_record(job, ZAXCLOVER_EDGE, (const uint32_t[]){50 + i, 0, vertex[i], vertex[i]}, 4);
    for (uint32_t i = 0; i < 2 * count; i++) {
        put_record(job, ZAXCLOVER_FACE, (const uint32_t[]){70 + i % 2, 0, 0, 0, i}, 5);
        put_loops(job, i / 2, i % 2, 1);
    }
    for (uint32_t i = 0; i < count && answers != NO_SURFACE; i++)
        put_record(job, ZAXCLOVER_SURFACE, (const uint32_t[]){2 * i, 0}, 2);
    for (uint32_t i = 0; i < count && answers != NO_SINGULAR; i++)
        put_record(job, ZAXCLOVER_SINGULAR, (const uint32_t[]){50 + i, 2 * i, 2 * i + 1, points[i], 1}, 5);
}

/* 42 by the fans of each point: the lowest point with more than one, whatever vertices stand on it. */
static void test_many_fans(void)
{
    static struct job job;
    static const struct {
        size_t count;
        uint32_t points[MOST_CLOSED];
        size_t number, place;
    } rows[] = {
        {1, {4}, 0, 0}, {2, {4, 5}, 0, 0}, {2, {4, 4}, 42, 4}, {2, {0, 0}, 42, 0}, {2, {0, 1}, 0, 0},
        {3, {4, 4, 4}, 42, 4}, {3, {5, 4, 5}, 42, 5}, {4, {9, 4, 9, 4}, 42, 4}, {4, {4, 9, 9, 4}, 42, 4},
        {4, {9, 9, 4, 4}, 42, 4}, {4, {9, 9, 4, 5}, 42, 9}, {4, {0, 9, 9, 0}, 42, 0}, {4, {9, 0, 9, 1}, 42, 9},
        {2, {UINT32_MAX, UINT32_MAX}, 42, UINT32_MAX}, {2, {UINT32_MAX, 0}, 0, 0}, {2, {4, 65540}, 0, 0},
        {2, {65540, 65540}, 42, 65540}, {3, {65540, 4, 65540}, 42, 65540}, {2, {1, 2147483649}, 0, 0},
        {4, {65537, 1, 1, 65537}, 42, 1}, {8, {7, 6, 5, 4, 3, 2, 1, 0}, 0, 0}, {8, {7, 6, 5, 4, 3, 2, 1, 7}, 42, 7},
    };
    expect(ZAXCLOVER_MANY_FANS == 42, "header", "the number of a point with more than one fan");
    for (size_t i = 0; i < sizeof rows / sizeof rows[0]; i++)
        for (int shared = 0; shared < 2; shared++) {
            put_closed(&job, rows[i].points, rows[i].count, shared, ALL_ANSWERS);
            size_t value;
            size_t number = zaxclover_sew(job.bytes, job.length, NULL, 0, &value);
            expect(number == ZAXCLOVER_NO_ROOM, "sew", "closed edges are sewn ordinarily");
            hold_for_print("closed edges", &job, rows[i].number, rows[i].place);
        }
}

/* 42 comes after the questions of surfaces and points, and before those of joining. */
static void test_order_of_fans(void)
{
    static struct job job;
    static const uint32_t touching[] = {4, 4};
    static const uint32_t apart[] = {4, 5};
    size_t value;
    put_closed(&job, touching, 2, 1, NO_SINGULAR);
    size_t number = zaxclover_sew(job.bytes, job.length, NULL, 0, &value);
    expect(number == ZAXCLOVER_UNANSWERED && value == ZAXCLOVER_SINGULAR, "sew", "a question of joining");
    hold_not_printed("before joining", &job, ZAXCLOVER_MANY_FANS, 4);
    put_closed(&job, apart, 2, 1, NO_SINGULAR);
    hold_not_printed("joining", &job, ZAXCLOVER_UNANSWERED, ZAXCLOVER_SINGULAR);
    put_closed(&job, touching, 2, 1, NO_SURFACE);
    hold_not_printed("after surfaces", &job, ZAXCLOVER_UNANSWERED, ZAXCLOVER_SURFACE);
    for (uint32_t answer = 3; answer <= 4; answer++) {
        size_t due = answer == 3 ? ZAXCLOVER_NORMALS_VANISH : ZAXCLOVER_UNDECIDED;
        put_closed(&job, touching, 2, 1, NO_SURFACE);
        put_record(&job, ZAXCLOVER_SURFACE, (const uint32_t[]){0, answer}, 2);
        hold_not_printed("after surfaces", &job, due, ZAXCLOVER_SURFACE);
    }
    static const struct line points[] = {
        {ZAXCLOVER_HEAD, 1, {1}}, {ZAXCLOVER_VERTEX, 1, {4}}, {ZAXCLOVER_VERTEX, 1, {5}},
        {ZAXCLOVER_EDGE, 4, {1, 0, 0, 0}}, {ZAXCLOVER_EDGE, 4, {2, 0, 0, 0}},
        {ZAXCLOVER_FACE, 5, {7, 0, 0, 0, 0}}, {ZAXCLOVER_LOOP, 2, {0, 0}}, {ZAXCLOVER_LOOP, 2, {1, 0}},
        {ZAXCLOVER_VERTEX_LOOP, 1, {0}}, {ZAXCLOVER_VERTEX_LOOP, 1, {1}},
        {ZAXCLOVER_FACE, 5, {8, 0, 0, 0, 1}}, {ZAXCLOVER_LOOP, 2, {0, 1}}, {ZAXCLOVER_LOOP, 2, {1, 1}},
        {ZAXCLOVER_SURFACE, 2, {0, 0}}, {ZAXCLOVER_SURFACE, 2, {1, 0}},
    };
    put_lines(&job, LINES(points));
    hold_not_printed("after points", &job, ZAXCLOVER_UNANSWERED, ZAXCLOVER_POINTS);
    put_record(&job, ZAXCLOVER_POINTS, (const uint32_t[]){4, 5, 2}, 3);
    hold_not_printed("after points", &job, ZAXCLOVER_UNDECIDED, ZAXCLOVER_POINTS);
    put_lines(&job, LINES(points));
    put_record(&job, ZAXCLOVER_POINTS, (const uint32_t[]){4, 5, 0}, 3);
    hold_not_printed("points answered", &job, ZAXCLOVER_MANY_FANS, 4);
    put_closed(&job, touching, 2, 1, ALL_ANSWERS);
    put_record(&job, ZAXCLOVER_HEAD, (const uint32_t[]){1}, 1);
    hold_not_printed("after loading", &job, ZAXCLOVER_WRONG_RECORD, job.length - 10);
}

/* Two fans at a point that ordinary sewing refuses with 31, 32 or 34, and fans of removed uses, which do not count. */
static void test_kept_fans(void)
{
    static struct job job;
    static const struct line boundary[] = {
        {ZAXCLOVER_HEAD, 1, {1}}, {ZAXCLOVER_VERTEX, 1, {4}}, {ZAXCLOVER_EDGE, 4, {1, 0, 0, 0}},
        {ZAXCLOVER_EDGE, 4, {2, 0, 0, 0}}, {ZAXCLOVER_FACE, 5, {7, 0, 0, 0, 0}}, {ZAXCLOVER_LOOP, 2, {0, 0}},
        {ZAXCLOVER_LOOP, 2, {1, 0}}, {ZAXCLOVER_FACE, 5, {8, 0, 0, 0, 1}}, {ZAXCLOVER_LOOP, 2, {0, 1}},
        {ZAXCLOVER_FACE, 5, {9, 0, 0, 0, 2}}, {ZAXCLOVER_LOOP, 2, {1, 1}}, {ZAXCLOVER_SURFACE, 2, {0, 0}},
        {ZAXCLOVER_SURFACE, 2, {1, 0}},
    };
    static const struct line seam[] = {
        {ZAXCLOVER_HEAD, 1, {1}}, {ZAXCLOVER_VERTEX, 1, {4}}, {ZAXCLOVER_EDGE, 4, {1, 0, 0, 0}},
        {ZAXCLOVER_EDGE, 4, {2, 0, 0, 0}}, {ZAXCLOVER_FACE, 5, {7, 0, 0, 0, 0}}, {ZAXCLOVER_LOOP, 2, {0, 0}},
        {ZAXCLOVER_LOOP, 2, {1, 0}}, {ZAXCLOVER_LOOP, 2, {1, 1}}, {ZAXCLOVER_FACE, 5, {8, 0, 0, 0, 1}},
        {ZAXCLOVER_LOOP, 2, {0, 1}}, {ZAXCLOVER_SURFACE, 2, {0, 0}}, {ZAXCLOVER_SINGULAR, 5, {1, 0, 1, 4, 1}},
    };
    static const size_t ordinary[] = {ZAXCLOVER_VOID_OUTSIDE, ZAXCLOVER_FANS_IN_LUMP};
    size_t value;
    put_lines(&job, LINES(boundary));
    size_t number = zaxclover_sew(job.bytes, job.length, NULL, 0, &value);
    expect(number == ZAXCLOVER_FANS_IN_BOUNDARY && value == 4, "sew", "two fans in one boundary");
    hold_not_printed("two fans in one boundary", &job, ZAXCLOVER_MANY_FANS, 4);
    put_lines(&job, LINES(seam));
    hold_printed("a seam", &job);
    for (uint32_t inside = 0; inside < 2; inside++) {
        put_closed(&job, (const uint32_t[]){4, 4}, 2, 1, ALL_ANSWERS);
        job.bytes[6] = 0; /* outer shells are not proven */
        put_record(&job, ZAXCLOVER_ORIENTATION, (const uint32_t[]){0, 1}, 2);
        put_record(&job, ZAXCLOVER_ORIENTATION, (const uint32_t[]){2, 0}, 2);
        put_record(&job, ZAXCLOVER_INSIDE, (const uint32_t[]){2, 0, inside}, 3);
        number = zaxclover_sew(job.bytes, job.length, NULL, 0, &value);
        expect(number == ordinary[inside], "sew", "a void that touches an outer shell");
        hold_not_printed("a void that touches an outer shell", &job, ZAXCLOVER_MANY_FANS, 4);
    }
}

/* A lens, whose two edges become one and then a ring; and two that touch at a point. */
static void test_lenses(void)
{
    static struct job job;
    static uint8_t out[4096];
    static const struct line lens[] = {
        {ZAXCLOVER_HEAD, 1, {1}}, {ZAXCLOVER_VERTEX, 1, {4}}, {ZAXCLOVER_VERTEX, 1, {1}},
        {ZAXCLOVER_EDGE, 4, {5, 0, 0, 1}}, {ZAXCLOVER_EDGE, 4, {5, 0, 1, 0}},
        {ZAXCLOVER_FACE, 5, {7, 0, 0, 0, 0}}, {ZAXCLOVER_LOOP, 4, {0, 0, 1, 0}},
        {ZAXCLOVER_FACE, 5, {8, 0, 0, 0, 1}}, {ZAXCLOVER_LOOP, 4, {1, 1, 0, 1}},
        {ZAXCLOVER_SURFACE, 2, {0, 0}}, {ZAXCLOVER_SURFACE, 2, {1, 0}},
        {ZAXCLOVER_SINGULAR, 5, {5, 0, 1, 4, 0}}, {ZAXCLOVER_SINGULAR, 5, {5, 0, 1, 1, 0}},
    };
    static const struct line two[] = {
        {ZAXCLOVER_HEAD, 1, {1}}, {ZAXCLOVER_VERTEX, 1, {4}}, {ZAXCLOVER_VERTEX, 1, {1}}, {ZAXCLOVER_VERTEX, 1, {4}},
        {ZAXCLOVER_VERTEX, 1, {3}}, {ZAXCLOVER_EDGE, 4, {5, 0, 0, 1}}, {ZAXCLOVER_EDGE, 4, {5, 0, 1, 0}},
        {ZAXCLOVER_EDGE, 4, {6, 0, 2, 3}}, {ZAXCLOVER_EDGE, 4, {6, 0, 3, 2}},
        {ZAXCLOVER_FACE, 5, {7, 0, 0, 0, 0}}, {ZAXCLOVER_LOOP, 4, {0, 0, 1, 0}},
        {ZAXCLOVER_FACE, 5, {8, 0, 0, 0, 1}}, {ZAXCLOVER_LOOP, 4, {1, 1, 0, 1}},
        {ZAXCLOVER_FACE, 5, {7, 0, 0, 0, 2}}, {ZAXCLOVER_LOOP, 4, {2, 0, 3, 0}},
        {ZAXCLOVER_FACE, 5, {8, 0, 0, 0, 3}}, {ZAXCLOVER_LOOP, 4, {3, 1, 2, 1}},
        {ZAXCLOVER_SURFACE, 2, {0, 0}}, {ZAXCLOVER_SURFACE, 2, {1, 0}}, {ZAXCLOVER_SURFACE, 2, {4, 0}},
        {ZAXCLOVER_SURFACE, 2, {5, 0}}, {ZAXCLOVER_SINGULAR, 5, {5, 0, 1, 4, 0}},
        {ZAXCLOVER_SINGULAR, 5, {5, 0, 1, 1, 0}}, {ZAXCLOVER_SINGULAR, 5, {6, 2, 3, 4, 0}},
        {ZAXCLOVER_SINGULAR, 5, {6, 2, 3, 3, 0}},
    };
    size_t value;
    put_lines(&job, LINES(lens));
    hold_printed("a lens", &job);
    zaxclover_sew_for_print(job.bytes, job.length, out, sizeof out, &value);
    expect(word(out + 22) == 1 && word(out + 26) == 1, "a lens", "a join and a ring");
    put_lines(&job, LINES(two));
    size_t number = zaxclover_sew(job.bytes, job.length, NULL, 0, &value);
    expect(number == ZAXCLOVER_NO_ROOM, "two lenses", "sewn ordinarily");
    hold_not_printed("two lenses", &job, ZAXCLOVER_MANY_FANS, 4);
}

/* How many jobs sewing for a print shop refuses with 41, with 42, and writes. */
struct printed {
    size_t many_uses, many_fans, bodies;
};

/* Any job for a print shop: what printshop.c works out, and the ordinary body. */
static void test_for_print(const uint8_t *job, size_t length, struct printed *printed)
{
    static uint8_t out[65536], ordinary[65536];
    struct answer plain, made;
    memset(out, MARK, sizeof out);
    memset(ordinary, MARK, sizeof ordinary);
    plain.number = zaxclover_sew(job, length, ordinary, sizeof ordinary, &plain.value);
    made.number = zaxclover_sew_for_print(job, length, out, sizeof out, &made.value);
    struct answer due = for_print(plain, job, length);
    expect(made.number == due.number && made.value == due.value, "sew for print", "the answer for some job");
    expect(can_be_for_print(made), "sew for print", "a refusal that cannot arise");
    if (made.number == ZAXCLOVER_DONE)
        expect(memcmp(out, ordinary, sizeof out) == 0, "sew for print", "the ordinary body of some job");
    else
        expect(is_marked(out, 0, sizeof out), "sew for print", "a refusal leaves the output");
    printed->many_uses += made.number == ZAXCLOVER_MANY_USES;
    printed->many_fans += made.number == ZAXCLOVER_MANY_FANS;
    printed->bodies += made.number == ZAXCLOVER_DONE;
}

/* STORED AND MADE-UP JOBS */

/* A face selected twice is refused with 45 or for what comes before; gives whether with 45. */
static int test_repeat(const uint8_t *job, size_t length)
{
    size_t value;
    size_t at = first_repeat(job, length);
    size_t number = zaxclover_read_stage(job, length, NULL, 0, &value);
    if (number == ZAXCLOVER_SELECTED_TWICE) {
        expect(at < length && value == at, "read", "the first face that is an earlier one");
        return 1;
    }
    int earlier = number >= ZAXCLOVER_JOB_TOO_LONG && number <= ZAXCLOVER_ANSWERED_BEFORE;
    expect(at == length || earlier, "read", "a face selected twice passed over");
    expect(at == length || value <= at || number == ZAXCLOVER_JOB_TOO_LONG, "read", "a refusal of a later record");
    return 0;
}

/* P1 to P9 and every other stored job. */
static void test_stored(const struct seeds *seeds)
{
    static uint8_t out[65536];
    size_t sewn = 0;
    size_t faces = 0;
    size_t lesser = 0;
    struct printed printed = {0, 0, 0};
    expect(seeds->count >= 9, "list", "stored jobs");
    for (size_t i = 0; i < seeds->count; i++) {
        size_t value;
        test_list(seeds->at[i], seeds->length[i]);
        test_repeat(seeds->at[i], seeds->length[i]);
        lesser += test_tables(seeds->at[i], seeds->length[i]);
        test_for_print(seeds->at[i], seeds->length[i], &printed);
        if (zaxclover_sew(seeds->at[i], seeds->length[i], out, sizeof out, &value) != ZAXCLOVER_DONE)
            continue;
        faces += test_members(seeds->at[i], seeds->length[i], out, value);
        sewn++;
    }
    expect(sewn >= 300 && faces >= 2 * sewn, "sew", "stored jobs with faces");
    expect(lesser >= 100, "sew with a table", "stored jobs that a lesser table joins less");
    expect(printed.many_uses >= 100 && printed.many_fans >= 5, "sew for print", "stored jobs with each of its faults");
    expect(printed.bodies >= 400, "sew for print", "stored jobs that are sewn for a print shop");
}

static int has_face(const struct job *job)
{
    for (size_t at = 0; at < job->length; at = after(job->bytes, at))
        if (is_kind(job->bytes, at, ZAXCLOVER_FACE))
            return 1;
    return 0;
}

/*
 * Jobs from nothing with faces load, faces are selected twice, and edges and points are at fault for a print shop: otherwise
 * `bindings/load` would make such jobs in vain.
 */
static void test_made(const struct seeds *seeds)
{
    static struct job job;
    size_t loaded = 0;
    size_t repeats = 0;
    struct printed printed = {0, 0, 0};
    for (uint64_t i = 0; i < 2000; i++) {
        size_t value;
        uint64_t state = job_state(1, i);
        const char *way = make_job(seeds, &state, &job);
        size_t number = zaxclover_read_stage(job.bytes, job.length, NULL, 0, &value);
        int loads = number == ZAXCLOVER_DONE || number == ZAXCLOVER_NO_ROOM;
        loaded += strcmp(way, "from nothing") == 0 && loads && has_face(&job);
        repeats += (size_t)test_repeat(job.bytes, job.length);
        test_for_print(job.bytes, job.length, &printed);
    }
    expect(loaded >= 10, "made-up jobs", "faces from nothing");
    expect(repeats >= 40, "made-up jobs", "faces selected twice");
    expect(printed.many_uses >= 40 && printed.many_fans >= 30, "made-up jobs", "edges and points at fault for a print shop");
    expect(printed.bodies >= 100, "made-up jobs", "bodies for a print shop");
}

int main(int count, char **words)
{
    static struct seeds seeds;
    FILE *file = count == 3 ? fopen(words[1], "rb") : NULL;
    if (file == NULL || !read_seeds(words[2], &seeds)) {
        fprintf(stderr, "usage: test FILE.job VECTORS, files that can be read\n");
        return 2;
    }
    uint8_t bytes[4096];
    size_t length = fread(bytes, 1, sizeof bytes, file);
    fclose(file);
    uint8_t *job = marked(length);
    memcpy(job, bytes, length);
    test_null();
    test_rooms(job, length);
    test_refused();
    test_loops(job, length);
    test_listing(job, length);
    test_list(job, length);
    test_faces(job, length);
    test_same_face();
    test_first_repeat();
    test_order();
    test_wrong_lengths(job, length);
    test_wrong_entries(job, length);
    test_job_after_table();
    test_tables_of_p9(job, length);
    test_opposed();
    test_many_uses();
    test_round_an_edge();
    test_many_fans();
    test_order_of_fans();
    test_kept_fans();
    test_lenses();
    test_stored(&seeds);
    test_made(&seeds);
    expect(memcmp(job, bytes, length) == 0 && is_marked(job, length, length + GUARD), "job", "left as it was");
    free(job);
    printf("%d tests, %d failures\n", tests, failures);
    return failures == 0 ? 0 : 1;
}
