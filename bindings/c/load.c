/*
 * A load on the boundary: makes up jobs and runs sewing, a stage, a loop request and the listing on each, sewing and the
 * walk stage with a joining table that is drawn for it, and sewing for a print shop, under the compiler's memory checker.
 * Each operation runs twice: on heap copies with guard bytes after table, job and output, and on copies that end where an
 * inaccessible page begins. Both must answer alike, write what the answer says and not a byte more. What sewing refuses while
 * loading, stage and loop request must refuse alike, and a face selected twice is found by a search of the load's own. With
 * the full table all is as without one; what another table makes of the job is worked out by the load (tables.c). How sewing
 * for a print shop ends is worked out from the job's uses and fans (printshop.c), and its body is the ordinary one.
 *
 * usage: load VECTORS JOBS SEED [FIRST]
 *
 * FIRST is the number of the first job, 0 if not given. The exit status is 0 if all is well, 1 if something is wrong
 * (the job is written to load-failure.job), 2 if the arguments cannot be used.
 */
#define _GNU_SOURCE
#include "jobs.h"
#include "operations.h"
#include "printshop.h"
#include "tables.h"

#include <sanitizer/common_interface_defs.h>
#include <stdio.h>
#include <stdlib.h>
#include <string.h>
#include <sys/mman.h>
#include <time.h>
#include <unistd.h>

enum { GUARD = 32, MARK = 0xA5, ARENA = 1 << 18, HIGHEST = 64 };

static struct job job;
static uint64_t seed;
static uint64_t number_of_job;
static const char *way;
static const char *doing;

/* FAILURES */

static void keep_job(void)
{
    FILE *file = fopen("load-failure.job", "wb");
    if (file != NULL) {
        fwrite(job.bytes, 1, job.length, file);
        fclose(file);
    }
    fprintf(stderr, "load: seed %llu, job %llu (%s, %zu bytes, written to load-failure.job), %s\n",
            (unsigned long long)seed, (unsigned long long)number_of_job, way, job.length, doing);
}

static void hold(int holds, const char *what)
{
    if (!holds) {
        keep_job();
        fprintf(stderr, "load: %s\n", what);
        _exit(1);
    }
}

/* BYTES WITH SOMETHING AFTER THEM */

static uint8_t marks[ARENA];

static int is_marked(const uint8_t *at, size_t length)
{
    return memcmp(at, marks, length) == 0;
}

/* So many bytes of the mark on the heap, and the guard after them. */
static uint8_t *on_heap(size_t length)
{
    uint8_t *bytes = malloc(length + GUARD);
    if (bytes == NULL)
        exit(2);
    memset(bytes, MARK, length + GUARD);
    return bytes;
}

/* The end of an arena after which a page is inaccessible. */
static uint8_t *arena_end(void)
{
    size_t page = (size_t)sysconf(_SC_PAGESIZE);
    uint8_t *arena = mmap(NULL, ARENA + page, PROT_READ | PROT_WRITE, MAP_PRIVATE | MAP_ANONYMOUS, -1, 0);
    if (arena == MAP_FAILED || mprotect(arena + ARENA, page, PROT_NONE) != 0)
        exit(2);
    return arena + ARENA;
}

static uint8_t *job_end, *out_end, *table_end;

/* ONE OPERATION */

/* An operation, or one that takes a table and the table that it is given. */
struct call {
    const char *name;
    operation plain; /* null if a table is given */
    table_operation with_table;
    const uint8_t *table;
    size_t table_length;
};

static struct call plain_call(const struct named *o)
{
    return (struct call){o->name, o->run, NULL, NULL, 0};
}

static struct call table_call(const struct named_with_table *o, const uint8_t *table, size_t length)
{
    return (struct call){o->name, NULL, o->run, table, length};
}

/* Runs a call on copies of its table and of the job. */
static struct answer run_on(const struct call *c, const uint8_t *table, const uint8_t *copy, uint8_t *out, size_t room)
{
    struct answer a;
    if (c->plain != NULL)
        a.number = c->plain(copy, job.length, out, room, &a.value);
    else
        a.number = c->with_table(table, c->table_length, copy, job.length, out, room, &a.value);
    hold(memcmp(copy, job.bytes, job.length) == 0, "the job is changed");
    hold(c->table_length == 0 || memcmp(table, c->table, c->table_length) == 0, "the table is changed");
    return a;
}

/* What an operation leaves of an output of the mark. */
static void hold_output(struct answer a, const uint8_t *out, size_t room)
{
    size_t written = a.number == ZAXCLOVER_DONE ? a.value : 0;
    hold(written <= room, "more bytes told than there was room for");
    hold(is_marked(out + written, room - written),
         written == 0 ? "a byte written without need" : "a byte written after the last");
}

/* A copy of bytes on the heap, and the guard after it. */
static uint8_t *copied(const uint8_t *bytes, size_t length)
{
    uint8_t *copy = on_heap(length);
    if (length > 0)
        memcpy(copy, bytes, length);
    return copy;
}

static struct answer on_heap_copy(const struct call *c, uint8_t *out, size_t room)
{
    uint8_t *table = copied(c->table, c->table_length);
    uint8_t *copy = copied(job.bytes, job.length);
    struct answer a = run_on(c, table, copy, out, room);
    hold(is_marked(table + c->table_length, GUARD), "the guard after the table is broken");
    hold(is_marked(copy + job.length, GUARD), "the guard after the job is broken");
    hold(is_marked(out + room, GUARD), "the guard after the output is broken");
    free(table);
    free(copy);
    hold_output(a, out, room);
    return a;
}

static struct answer at_page_end(const struct call *c, size_t room)
{
    uint8_t *table = table_end - c->table_length;
    uint8_t *out = out_end - room;
    memset(out - GUARD, MARK, room + GUARD);
    if (c->table_length > 0)
        memcpy(table, c->table, c->table_length);
    struct answer a = run_on(c, table, job_end - job.length, out, room);
    hold(is_marked(out - GUARD, GUARD), "a byte written before the output");
    hold_output(a, out, room);
    return a;
}

/* Ample, exact, one short, none, or any room. */
static size_t some_room(uint64_t *state, size_t needed)
{
    switch (below(state, 5)) {
    case 0: return needed + 1 + below(state, 4096);
    case 1: return needed;
    case 2: return needed == 0 ? 0 : needed - 1;
    case 3: return 0;
    default: return below(state, needed + 64);
    }
}

/* The answer that room 0 tells, in the room given. */
static struct answer expected(struct answer empty, size_t room)
{
    if (empty.number == ZAXCLOVER_NO_ROOM && empty.value <= room)
        empty.number = ZAXCLOVER_DONE;
    return empty;
}

static void hold_listing(const uint8_t *out, size_t room, size_t value)
{
    size_t length = zaxclover_listing(ZAXCLOVER_DONE, value, out, room, NULL, 0);
    hold(length <= 3 * value, "a listing longer than three characters a byte");
    uint8_t *page = on_heap(length);
    hold(zaxclover_listing(ZAXCLOVER_DONE, value, out, room, page, length) == length, "another listing");
    hold(is_marked(page + length, GUARD), "the guard after the page is broken");
    hold(length > 0 && page[length - 1] == '\n', "a listing without a last line");
    uint8_t *copy = on_heap(length - 1);
    zaxclover_listing(ZAXCLOVER_DONE, value, out, room, copy, length - 1);
    hold(memcmp(page, copy, length - 1) == 0, "another listing on a shorter page");
    hold(is_marked(copy + length - 1, GUARD), "the guard after the shorter page is broken");
    free(page);
    free(copy);
}

static int is_sewing(const struct call *c)
{
    return c->plain == zaxclover_sew || c->plain == zaxclover_sew_for_print || c->with_table == zaxclover_sew_with_table;
}

static struct answer run_operation(const struct call *c, uint64_t *state)
{
    doing = c->name;
    uint8_t *none = on_heap(0);
    struct answer empty = on_heap_copy(c, none, 0);
    free(none);
    size_t room = some_room(state, empty.number == ZAXCLOVER_NO_ROOM ? empty.value : 0);
    uint8_t *out = on_heap(room);
    struct answer a = on_heap_copy(c, out, room);
    struct answer wanted = expected(empty, room);
    hold(a.number == wanted.number && a.value == wanted.value, "another answer than without room");
    struct answer b = at_page_end(c, room);
    hold(a.number == b.number && a.value == b.value, "another answer the second time");
    hold(memcmp(out, out_end - room, room) == 0, "another output the second time");
    if (is_sewing(c) && a.number == ZAXCLOVER_DONE)
        hold_listing(out, room, a.value);
    free(out);
    return a;
}

/* LOADING */

/* What the face at a place, which has body and source face of an earlier one, is refused with if no earlier record is. */
static size_t number_of_repeat(size_t place)
{
    for (size_t at = 0; at < place; at += 6 + word(job.bytes + at))
        if (job.bytes[at + 4] > ZAXCLOVER_VERTEX_LOOP)
            return ZAXCLOVER_WRONG_RECORD;
    const uint8_t *fields = job.bytes + place + 6;
    if (word(fields + 4) > 1 || word(fields + 8) > 1 || word(fields + 12) > 1)
        return ZAXCLOVER_WRONG_FIELD;
    return ZAXCLOVER_SELECTED_TWICE;
}

/* 45 comes where a face is selected twice and an earlier record or field is not at fault, and nowhere else. */
static void hold_repeat(struct answer a)
{
    size_t at = first_repeat(job.bytes, job.length);
    doing = "a face selected twice";
    if (a.number == ZAXCLOVER_SELECTED_TWICE)
        hold(at < job.length && a.value == at, "a refusal with 45 elsewhere than at the first face that is an earlier one");
    if (at == job.length || a.number == ZAXCLOVER_JOB_TOO_LONG)
        return;
    hold(of_loading(a.number) && a.value <= at, "a face selected twice is passed over");
    hold(a.value < at || a.number == number_of_repeat(at), "a face selected twice has another number");
}

/* Whether a number is one that only a print shop's rules give. */
static int of_print_shop(size_t number)
{
    return number == ZAXCLOVER_MANY_USES || number == ZAXCLOVER_MANY_FANS;
}

/*
 * What sewing refuses while loading, a stage refuses alike; otherwise its refusal is none of loading's, and neither is a
 * table's or a print shop's.
 */
static void hold_alike(struct answer sewing, struct answer stage)
{
    int alike = sewing.number == stage.number && sewing.value == stage.value;
    hold(of_loading(sewing.number) ? alike : !of_loading(stage.number), "another refusal of loading than sewing's");
    int of_tables = sewing.number == ZAXCLOVER_WRONG_TABLE || stage.number == ZAXCLOVER_WRONG_TABLE;
    hold(!of_tables, "a refusal of a table where there is none");
    hold(!of_print_shop(sewing.number) && !of_print_shop(stage.number), "a refusal of a print shop where there is none");
}

/* THE LOOP REQUEST */

/* The loop request, by sewing's answer. */
static size_t request_loop(uint64_t *state, struct answer sewing)
{
    size_t wishes[] = {0, 1, below(state, 8), below(state, 1025), ZAXCLOVER_LOOPS, SIZE_MAX};
    size_t n = wishes[below(state, sizeof wishes / sizeof wishes[0])];
    size_t start, value, start2, value2;
    doing = "loop request";
    uint8_t *copy = on_heap(job.length);
    memcpy(copy, job.bytes, job.length);
    size_t number = zaxclover_loop(copy, job.length, n, &start, &value);
    hold(memcmp(copy, job.bytes, job.length) == 0, "the job is changed");
    free(copy);
    size_t number2 = zaxclover_loop(job_end - job.length, job.length, n, &start2, &value2);
    hold(number == number2 && start == start2 && value == value2, "another answer the second time");
    if (of_loading(sewing.number))
        hold(number == sewing.number && value == sewing.value, "another refusal of loading than sewing's");
    else
        hold(number == ZAXCLOVER_DONE || (number == ZAXCLOVER_WRONG_FIELD && value == n), "a refusal of no request");
    if (number != ZAXCLOVER_DONE) {
        hold(start == 0, "a start in a refusal");
        return number;
    }
    hold(start >= 6 && start <= job.length && value <= job.length - start, "a stretch outside the job");
    const uint8_t *kind = job.bytes + start - 2;
    hold(kind[1] == 0 && (kind[0] == ZAXCLOVER_LOOP || kind[0] == ZAXCLOVER_VERTEX_LOOP), "no loop's payload");
    return number;
}

/* THE LISTING OF A JOB */

enum { BODY = 65536 };

/* The text that is due, of sewing's answer in 65,536 bytes. */
static uint8_t *due_listing(size_t *length)
{
    uint8_t *out = on_heap(BODY);
    uint8_t *due = on_heap(ZAXCLOVER_LISTING);
    size_t value;
    size_t number = zaxclover_sew(job.bytes, job.length, out, BODY, &value);
    *length = zaxclover_listing(number, value, out, BODY, due, ZAXCLOVER_LISTING);
    hold(*length > 0 && *length <= ZAXCLOVER_LISTING, "a listing longer than it may be");
    free(out);
    return due;
}

static void list_job(uint64_t *state)
{
    doing = "list";
    size_t length;
    uint8_t *due = due_listing(&length);
    size_t room = some_room(state, length);
    size_t shown = room < length ? room : length;
    uint8_t *copy = on_heap(job.length);
    memcpy(copy, job.bytes, job.length);
    uint8_t *page = on_heap(room);
    hold(zaxclover_list(copy, job.length, page, room) == length, "another length than that of the listing");
    hold(memcmp(page, due, shown) == 0, "another listing than that of sewing's answer");
    hold(is_marked(page + shown, room - shown + GUARD), "a byte written after the text");
    hold(memcmp(copy, job.bytes, job.length) == 0 && is_marked(copy + job.length, GUARD), "the job is changed");
    uint8_t *end = out_end - room;
    memset(end - GUARD, MARK, room + GUARD);
    hold(zaxclover_list(job_end - job.length, job.length, end, room) == length, "another length the second time");
    hold(is_marked(end - GUARD, GUARD), "a byte written before the page");
    hold(memcmp(page, end, room) == 0, "another listing the second time");
    free(due);
    free(copy);
    free(page);
}

/* COUNTS */

static void count(uint64_t *counts, size_t number)
{
    hold(strcmp(zaxclover_words(number), zaxclover_words(SIZE_MAX)) != 0, "a number that no refusal has");
    counts[number]++;
}

/* JOINING TABLES */

enum { LONGEST_TABLE = 300 };

struct table {
    size_t length;
    uint8_t bytes[LONGEST_TABLE];
};

/* A permitted table, in half of all draws; one with an entry that is not, or one of another length. */
static void draw_table(uint64_t *state, struct table *table)
{
    static const uint8_t entries[] = {0, 0, 0, 1, 1, 1, 2, 3, 48, 49, 128, 255};
    size_t way = below(state, 6);
    table->length = way == 5 ? below(state, below(state, 4) ? 9 : LONGEST_TABLE + 1) : ZAXCLOVER_TABLE_BYTES;
    for (size_t i = 0; i < table->length; i++)
        table->bytes[i] = entries[below(state, sizeof entries)];
    if (way < 3 || (way == 5 && table->length >= ZAXCLOVER_TABLE_BYTES && below(state, 2)))
        memcpy(table->bytes, permitted[below(state, TABLES)], ZAXCLOVER_TABLE_BYTES);
}

/* An answer, and the output of 65,536 bytes that it left. */
struct outcome {
    struct answer answer;
    uint8_t out[BODY];
};

static void run_amply(const struct call *c, struct outcome *outcome)
{
    uint8_t *table = copied(c->table, c->table_length);
    memset(outcome->out, MARK, BODY);
    outcome->answer = run_on(c, table, job.bytes, outcome->out, BODY);
    hold_output(outcome->answer, outcome->out, BODY);
    free(table);
}

static int is_same(struct answer a, struct answer b)
{
    return a.number == b.number && a.value == b.value;
}

/* The answer without a table in 65,536 bytes; that of the full table is the same. */
static void hold_full(const struct named_with_table *o, struct outcome *ordinary)
{
    static struct outcome full;
    struct named without = {o->name, o->ordinary};
    struct call ordinary_call = plain_call(&without);
    struct call full_call = table_call(o, permitted[0], ZAXCLOVER_TABLE_BYTES);
    run_amply(&ordinary_call, ordinary);
    run_amply(&full_call, &full);
    hold(is_same(full.answer, ordinary->answer), "another answer with the full table than without one");
    hold(memcmp(full.out, ordinary->out, BODY) == 0, "another output with the full table than without one");
}

/* Whether the stage of the walks refuses a question that it puts after merging, of points. */
static int of_points(struct answer a)
{
    return of_question(a, ZAXCLOVER_POINTS);
}

/*
 * What a permitted table cannot change: the refusals before joining, and two pairs in one boundary, which only questions
 * of points come before.
 */
static void hold_refusals(struct answer ordinary, struct answer a)
{
    if (before_joining(ordinary.number, ordinary.value) || before_joining(a.number, a.value))
        hold(is_same(ordinary, a), "another refusal before joining than without a table");
    if (ordinary.number == ZAXCLOVER_PAIRS_IN_BOUNDARY && !of_points(a))
        hold(is_same(ordinary, a), "two pairs in one boundary are passed over");
    if (a.number == ZAXCLOVER_PAIRS_IN_BOUNDARY && !of_points(ordinary))
        hold(is_same(ordinary, a), "two pairs in one boundary that there are not without a table");
}

/* The body's first numbers and its faces are those of the load's own merging and walks. */
static void hold_body(const struct outcome *sewn, const struct merged *due)
{
    const uint8_t *body = sewn->out + 6;
    size_t faces = 0;
    for (size_t at = 0; at < sewn->answer.value; at += 6 + word(sewn->out + at))
        faces += sewn->out[at + 4] == ZAXCLOVER_BODY_FACE;
    hold(word(body + 4) == due->uses, "another number of uses");
    hold(word(body + 8) == due->removed, "another number of removed uses than the table gives");
    hold(word(body + 12) == due->passed, "another number of uses passed over than the table gives");
    hold(word(body + 24) == due->joins, "another number of face joins than the table gives");
    hold(faces + due->joins == due->faces, "faces and face joins are not the faces selected");
}

static void hold_walks(const struct outcome *walked, const struct merged *due)
{
    hold(walked->answer.value == due->walks_length, "another number of walks than the table gives");
    hold(memcmp(walked->out, due->walks, due->walks_length) == 0, "other walks than the table gives");
}

/* Bodies with a lesser table beside those with the full one. */
static void hold_lesser(const struct outcome *ordinary, const struct outcome *sewn, const uint8_t *table)
{
    const uint8_t *body = sewn->out + 6;
    const uint8_t *full = ordinary->out + 6;
    hold(word(body + 8) <= word(full + 8), "more removed uses than with the full table");
    hold(word(body + 24) <= word(full + 24), "more face joins than with the full table");
    if (memcmp(table, permitted[TABLES - 1], ZAXCLOVER_TABLE_BYTES) == 0)
        hold(word(body + 24) == 0, "face joins though no two faces join");
}

static uint64_t tabled[HIGHEST];
static uint64_t lesser;

/* What is due of sewing and the walk stage with a permitted table, in 65,536 bytes, beside what they are without one. */
static void hold_permitted(const uint8_t *table, const struct outcome *ordinary)
{
    static struct outcome made[TABLE_OPERATIONS];
    static struct merged due;
    for (int k = 0; k < TABLE_OPERATIONS; k++) {
        struct call c = table_call(&table_operations[k], table, ZAXCLOVER_TABLE_BYTES);
        doing = c.name;
        run_amply(&c, &made[k]);
        hold_refusals(ordinary[k].answer, made[k].answer);
    }
    struct answer sewing = made[0].answer;
    struct answer walking = made[1].answer;
    int refused = before_joining(sewing.number, sewing.value) || of_points(sewing);
    hold(refused ? is_same(sewing, walking) : walking.number == ZAXCLOVER_DONE, "sewing and the walk stage part too early");
    if (refused)
        return;
    merge_by(table, job.bytes, job.length, &due);
    hold_walks(&made[1], &due);
    if (sewing.number != ZAXCLOVER_DONE)
        return;
    doing = table_operations[0].name;
    hold_body(&made[0], &due);
    if (ordinary[0].answer.number != ZAXCLOVER_DONE)
        return;
    hold_lesser(&ordinary[0], &made[0], table);
    lesser += word(made[0].out + 30) < word(ordinary[0].out + 30);
}

static void run_tables(uint64_t *state)
{
    static struct outcome ordinary[TABLE_OPERATIONS];
    static struct table table;
    size_t place;
    draw_table(state, &table);
    int refused = is_refused(table.bytes, table.length, &place);
    for (int k = 0; k < TABLE_OPERATIONS; k++) {
        struct call c = table_call(&table_operations[k], table.bytes, table.length);
        doing = c.name;
        hold_full(&table_operations[k], &ordinary[k]);
        struct answer a = run_operation(&c, state);
        hold((a.number == ZAXCLOVER_WRONG_TABLE) == refused, "a table that is refused, or passes, though it should not");
        hold(!refused || a.value == place, "a table is refused at another byte");
        hold(!of_print_shop(a.number), "a refusal of a print shop with a table");
        count(tabled, a.number);
    }
    if (!refused)
        hold_permitted(table.bytes, ordinary);
}

/* A PRINT SHOP */

static uint64_t printed[HIGHEST];
static uint64_t only_ordinary, both;

/* What is wrong where sewing for a print shop answers otherwise than it should. */
static const char *wrong_for_print(struct answer due, struct answer a)
{
    if (of_loading(due.number))
        return "another refusal of loading than sewing's";
    if (due.number == ZAXCLOVER_MANY_USES)
        return "an edge with more than two uses is passed over, or told otherwise";
    if (due.number == ZAXCLOVER_MANY_FANS)
        return "a point with more than one fan is passed over, or told otherwise";
    if (of_print_shop(a.number))
        return "a fault of an edge or a point that there is not";
    return "another answer than that of ordinary sewing, or of the lowest edge at fault";
}

/* The number in an output without room for anything. */
static size_t without_room(size_t number)
{
    return number == ZAXCLOVER_DONE ? ZAXCLOVER_NO_ROOM : number;
}

static void run_print(uint64_t *state)
{
    static struct outcome ordinary, made;
    struct call sew = plain_call(&operations[0]);
    struct call print = plain_call(&operations[FOR_PRINT]);
    doing = print.name;
    run_amply(&sew, &ordinary);
    run_amply(&print, &made);
    struct answer due = for_print(ordinary.answer, job.bytes, job.length);
    hold(is_same(made.answer, due), wrong_for_print(due, made.answer));
    hold(can_be_for_print(due), "a refusal that cannot arise for a print shop");
    int accepted = due.number == ZAXCLOVER_DONE;
    hold(!accepted || memcmp(made.out, ordinary.out, BODY) == 0, "another body than that of ordinary sewing");
    struct answer a = run_operation(&print, state);
    hold(without_room(a.number) == without_room(due.number) && a.value == due.value, "another answer in another room");
    count(printed, a.number);
    both += accepted;
    only_ordinary += !accepted && ordinary.answer.number == ZAXCLOVER_DONE;
}

/* THE RUN */

static uint64_t sewn[HIGHEST], staged[HIGHEST], requested[HIGHEST];

static void run_job(const struct seeds *seeds)
{
    uint64_t state = job_state(seed, number_of_job);
    doing = "making the job";
    way = make_job(seeds, &state, &job);
    memcpy(job_end - job.length, job.bytes, job.length);
    struct call sew = plain_call(&operations[0]);
    struct call some_stage = plain_call(&operations[1 + number_of_job % (FOR_PRINT - 1)]);
    struct answer sewing = run_operation(&sew, &state);
    count(sewn, sewing.number);
    hold_repeat(sewing);
    struct answer stage = run_operation(&some_stage, &state);
    count(staged, stage.number);
    hold_alike(sewing, stage);
    count(requested, request_loop(&state, sewing));
    list_job(&state);
    run_tables(&state);
    run_print(&state);
}

static void print_counts(const char *name, const uint64_t *counts)
{
    printf("%s: accepted %llu; refused by number:", name, (unsigned long long)counts[0]);
    for (size_t n = 1; n < HIGHEST; n++)
        if (counts[n] > 0)
            printf(" %zu: %llu", n, (unsigned long long)counts[n]);
    printf("\n");
}

/* How often a number was met where it can be met. */
static uint64_t met_of(size_t number)
{
    if (number == ZAXCLOVER_WRONG_TABLE)
        return tabled[number];
    return of_print_shop(number) ? printed[number] : sewn[number];
}

static void print_unmet(void)
{
    printf("refusals of sewing that were not met:");
    int any = 0;
    for (size_t n = 1; n < HIGHEST; n++)
        if (met_of(n) == 0 && strcmp(zaxclover_words(n), zaxclover_words(SIZE_MAX)) != 0)
            any = printf(" %zu", n);
    printf(any ? "\n" : " none\n");
}

static double now(void)
{
    struct timespec t;
    clock_gettime(CLOCK_MONOTONIC, &t);
    return (double)t.tv_sec + (double)t.tv_nsec / 1e9;
}

/* Whether a word is a number; it is stored. */
static int read_number(const char *word, uint64_t *number)
{
    char *end;
    *number = strtoull(word, &end, 10);
    return word[0] >= '0' && word[0] <= '9' && *end == 0;
}

int main(int count_of_words, char **words)
{
    static struct seeds seeds;
    uint64_t jobs;
    uint64_t first = 0;
    int usable = (count_of_words == 4 || count_of_words == 5) && read_number(words[2], &jobs)
        && read_number(words[3], &seed) && (count_of_words == 4 || read_number(words[4], &first));
    if (!usable) {
        fprintf(stderr, "usage: load VECTORS JOBS SEED [FIRST]\n");
        return 2;
    }
    if (!read_seeds(words[1], &seeds)) {
        fprintf(stderr, "load: %s cannot be read as packed vectors\n", words[1]);
        return 2;
    }
    memset(marks, MARK, sizeof marks);
    job_end = arena_end();
    out_end = arena_end();
    table_end = arena_end();
    __sanitizer_set_death_callback(keep_job);
    double begun = now();
    for (number_of_job = first; number_of_job < first + jobs; number_of_job++)
        run_job(&seeds);
    printf("jobs %llu, seed %llu, %.1f seconds, nothing wrong\n",
           (unsigned long long)jobs, (unsigned long long)seed, now() - begun);
    print_counts("sewing", sewn);
    print_counts("stages", staged);
    print_counts("loop requests", requested);
    print_counts("with tables", tabled);
    printf("bodies with fewer face joins than without a table: %llu\n", (unsigned long long)lesser);
    print_counts("for print", printed);
    printf("bodies for print: %llu; not for print, but ordinarily: %llu\n", (unsigned long long)both,
           (unsigned long long)only_ordinary);
    print_unmet();
    return 0;
}
