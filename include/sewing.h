/*
 * Sewing of selected faces: from a job's bytes to a body's bytes, or to the fields of a single stage.
 *
 * Link target/staticlib/libsewing_c.a, which `tools/build sewing_c` writes. Every function is proved to answer as the
 * rules say for every job, damaged ones too. C cannot keep these promises for its callers, so keep them yourself:
 *
 *  - a pointer to bytes is valid for the length that follows it; it may be null only if that length is 0;
 *  - `value` and `start` each point to a size_t of the caller's;
 *  - what a function writes (`out`, `page`, `*value`, `*start`) shares no byte with anything else that it is given;
 *  - the stack has ZAXCLOVER_STACK bytes left.
 *
 * Nothing is allocated, and nothing is kept between calls: functions may run in several threads at once.
 */
#ifndef ZAXCLOVER_SEWING_H
#define ZAXCLOVER_SEWING_H

#include <stddef.h>
#include <stdint.h>

#ifdef __cplusplus
extern "C" {
#endif

/* Raised when the form of jobs or bodies changes. 2: faces have body and source face, and bodies have members. */
#define ZAXCLOVER_VERSION 2

/* LIMITS */

enum {
    ZAXCLOVER_JOB_BYTES = 65536, /* a longer job is refused */
    ZAXCLOVER_FACES = 256,
    ZAXCLOVER_USES = 2048,
    ZAXCLOVER_EDGES = 1024,
    ZAXCLOVER_VERTICES = 1024,
    ZAXCLOVER_LOOPS = 1024, /* of both sorts together */
    ZAXCLOVER_ANSWERS = 2048,
    ZAXCLOVER_TABLE_BYTES = 4, /* of a joining table */
    ZAXCLOVER_LISTING = 196608, /* the text of zaxclover_list is not longer */
    ZAXCLOVER_STACK = 524288 /* a call takes less */
};

/* In place of a vertex: none. */
#define ZAXCLOVER_NONE UINT32_C(4294967295)

/*
 * RECORDS
 *
 * A record is a 4-byte payload length, a 2-byte kind, then the payload in 4-byte fields, all unsigned little-endian. A
 * sense is 0 Same, 1 Reversed.
 */

/* The records of a job, in this order; answers (7 to 13) stand in any order. */
enum zaxclover_job_kind {
    ZAXCLOVER_HEAD = 1,         /* 1 if outer shells are proven, else 0 */
    ZAXCLOVER_VERTEX = 2,       /* point; several vertices may stand on one */
    ZAXCLOVER_EDGE = 3,         /* curve, sense, start vertex, end vertex; none in both: a ring */
    ZAXCLOVER_FACE = 4,         /* surface, own sense, selected sense, body (0 or 1), source face; no two alike in the last two */
    ZAXCLOVER_LOOP = 5,         /* of the latest face, one or more of: edge, sense; each ends at the point where the next starts */
    ZAXCLOVER_VERTEX_LOOP = 6,  /* of the latest face: vertex */
    ZAXCLOVER_RADIAL = 7,       /* edge, then its uses in order round it; no use: undecided */
    ZAXCLOVER_SURFACE = 8,      /* lower use of a pair; 0 different, 1 same, 2 same and opposed, 3 vanishing, 4 undecided */
    ZAXCLOVER_POINTS = 9,       /* two points; 0 different, 1 same, 2 undecided */
    ZAXCLOVER_CURVES = 10,      /* two curves; as for points */
    ZAXCLOVER_SINGULAR = 11,    /* curve, lower face, higher face, point; 0 no, 1 yes, 2 undecided */
    ZAXCLOVER_ORIENTATION = 12, /* lowest face of a shell; 0 void, 1 outer, 2 undecided */
    ZAXCLOVER_INSIDE = 13       /* lowest face of the probe, of the container; 0 no, 1 yes, 2 undecided */
};

/* The records of a body, in the order of document 01's part P9. */
enum zaxclover_body_kind {
    ZAXCLOVER_BODY = 21,             /* 0 Empty or 1 Solid, uses, removed, passed in total, joins, rings, face joins */
    ZAXCLOVER_BODY_VERTEX = 22,      /* point */
    ZAXCLOVER_BODY_EDGE = 23,        /* curve, sense, start, end; none in both: a ring */
    ZAXCLOVER_BODY_FACE = 24,        /* surface, sense; its members, loops and vertex loops follow */
    ZAXCLOVER_BODY_LOOP = 25,        /* edge and sense of each item */
    ZAXCLOVER_BODY_VERTEX_LOOP = 26, /* point */
    ZAXCLOVER_BODY_LUMP = 27,        /* no fields */
    ZAXCLOVER_BODY_SHELL = 28,       /* faces */
    ZAXCLOVER_BODY_MEMBERS = 29      /* of the face before it: body and source face of each of its selected faces */
};

/* REFUSALS. The comment says what the place is. */
enum zaxclover_number {
    ZAXCLOVER_DONE = 0,               /* no refusal */
    ZAXCLOVER_JOB_TOO_LONG = 1,       /* 65,536 */
    ZAXCLOVER_CUT_SHORT = 2,          /* the record's first byte, as for 3 to 7 and 45 */
    ZAXCLOVER_WRONG_RECORD = 3,       /* unknown kind, wrong length or wrong position; no Head: 0 if the job is empty */
    ZAXCLOVER_WRONG_FIELD = 4,        /* for a loop request also: the number, which is too high */
    ZAXCLOVER_LIMIT_PASSED = 5,
    ZAXCLOVER_BROKEN_JOINT = 6,
    ZAXCLOVER_ANSWERED_BEFORE = 7,
    ZAXCLOVER_EQUAL_SENSES = 10,      /* the edge with two uses in one sense */
    ZAXCLOVER_ODD_USES = 11,          /* the edge with one use or an odd number */
    ZAXCLOVER_SAME_AFTER_SAME = 12,   /* the edge round which a Same use follows a Same use */
    ZAXCLOVER_NO_TWIN = 13,           /* the use */
    ZAXCLOVER_UNANSWERED = 20,        /* the kind of the question */
    ZAXCLOVER_UNDECIDED = 21,         /* the kind of the question */
    ZAXCLOVER_NORMALS_VANISH = 22,    /* 8 */
    ZAXCLOVER_WRONG_RADIAL = 23,      /* the edge whose radial list is not each of its uses once */
    ZAXCLOVER_PAIRS_IN_BOUNDARY = 30, /* the edge with two pairs in one boundary */
    ZAXCLOVER_FANS_IN_BOUNDARY = 31,  /* the point with two fans in one boundary */
    ZAXCLOVER_FANS_IN_LUMP = 32,      /* the point with two fans in one lump */
    ZAXCLOVER_PAIRS_IN_LUMP = 33,     /* the edge with two pairs in one lump */
    ZAXCLOVER_VOID_OUTSIDE = 34,      /* the lowest face of a void that lies in no outer shell */
    ZAXCLOVER_NO_ROOM = 40,           /* the bytes needed */
    ZAXCLOVER_MANY_USES = 41,         /* the edge with more than two uses (print shop) */
    ZAXCLOVER_MANY_FANS = 42,         /* the point with more than one fan (print shop) */
    ZAXCLOVER_SELECTED_TWICE = 45,    /* the record's first byte, of the later face */
    ZAXCLOVER_WRONG_TABLE = 48        /* 4 if the joining table is not of 4 bytes, else its first faulty byte */
};

/*
 * A JOINING TABLE
 *
 * Which answers of kind 8 join two faces: ZAXCLOVER_TABLE_BYTES bytes, each 1 (the faces join) or 0 (they do not). A row is
 * for an answer, 1 and then 2; a column for the stored senses of the two faces (own times selected), equal and then
 * different. A 1 is permitted only where zaxclover_sew joins, so that there are four tables:
 *
 *     1 0 0 1    the full one: what zaxclover_sew does
 *     1 0 0 0    opposed surfaces do not join
 *     0 0 0 1    agreeing surfaces do not join
 *     0 0 0 0    no two faces join
 *
 * Whatever the table, the same surface questions are put, and 20, 21 and 22 come of their answers as ever.
 */
enum zaxclover_table_byte {
    ZAXCLOVER_AGREEING_EQUAL = 0,     /* answer 1, equal senses: 0 or 1 */
    ZAXCLOVER_AGREEING_DIFFERENT = 1, /* answer 1, different senses: 0 */
    ZAXCLOVER_OPPOSED_EQUAL = 2,      /* answer 2, equal senses: 0 */
    ZAXCLOVER_OPPOSED_DIFFERENT = 3   /* answer 2, different senses: 0 or 1 */
};

/*
 * SEWING AND THE SINGLE STAGES
 *
 * Returns 0: the records or fields stand at the start of `out`, *value is how many bytes they take, and the later bytes
 * are as before. Or returns a refusal's number: *value is its place, and `out` is as before. docs/STAGES.md has the
 * fields of each stage.
 */

size_t zaxclover_sew(const uint8_t *job, size_t job_length, uint8_t *out, size_t out_length, size_t *value);
size_t zaxclover_read_stage(const uint8_t *job, size_t job_length, uint8_t *out, size_t out_length, size_t *value);
size_t zaxclover_pair_stage(const uint8_t *job, size_t job_length, uint8_t *out, size_t out_length, size_t *value);
size_t zaxclover_merge_stage(const uint8_t *job, size_t job_length, uint8_t *out, size_t out_length, size_t *value);
size_t zaxclover_vertex_loop_stage(const uint8_t *job, size_t job_length, uint8_t *out, size_t out_length, size_t *value);
size_t zaxclover_walk_stage(const uint8_t *job, size_t job_length, uint8_t *out, size_t out_length, size_t *value);
size_t zaxclover_loop_stage(const uint8_t *job, size_t job_length, uint8_t *out, size_t out_length, size_t *value);
size_t zaxclover_fan_stage(const uint8_t *job, size_t job_length, uint8_t *out, size_t out_length, size_t *value);
size_t zaxclover_edge_stage(const uint8_t *job, size_t job_length, uint8_t *out, size_t out_length, size_t *value);
size_t zaxclover_joining_stage(const uint8_t *job, size_t job_length, uint8_t *out, size_t out_length, size_t *value);
size_t zaxclover_shell_stage(const uint8_t *job, size_t job_length, uint8_t *out, size_t out_length, size_t *value);
size_t zaxclover_lump_stage(const uint8_t *job, size_t job_length, uint8_t *out, size_t out_length, size_t *value);

/*
 * SEWING AND THE WALK STAGE WITH A JOINING TABLE
 *
 * Each answers as the function without a table does, but that faces join by the table: with 1 0 0 1 the two are the same.
 * A table that is not permitted is refused with 48 before anything else, whatever job and output are: also before 1, and
 * before 40. Its length is tested first.
 */

size_t zaxclover_sew_with_table(const uint8_t *table, size_t table_length, const uint8_t *job, size_t job_length,
                                uint8_t *out, size_t out_length, size_t *value);
size_t zaxclover_walk_stage_with_table(const uint8_t *table, size_t table_length, const uint8_t *job, size_t job_length,
                                       uint8_t *out, size_t out_length, size_t *value);

/*
 * SEWING FOR A PRINT SHOP
 *
 * Shops with resin printers accept only boundaries where each edge has two uses and each point has one fan. This function
 * answers as zaxclover_sew does, but that two things are refused:
 *
 *  - an edge with four uses or any larger even number, with 41: right after 11 for that edge, so before any fault of a
 *    higher edge;
 *  - a point with more than one fan, whatever boundaries the fans lie in, with 42: the lowest such point, before the
 *    questions of joining (kinds 10 and 11) and all that comes after them.
 *
 * A job with neither fault ends as it does with zaxclover_sew, refused or not, and for one that is accepted the body is the
 * same. No radial list (kind 7) is asked for, so that 20 and 21 of kind 7, 12, 13 and 23 cannot arise; nor can 30 to 33,
 * since no edge has two pairs and no point two fans. The full joining table is the one that faces join by.
 */
size_t zaxclover_sew_for_print(const uint8_t *job, size_t job_length, uint8_t *out, size_t out_length, size_t *value);

/*
 * THE LOOP REQUEST
 *
 * Loop n of the job, counted among both sorts of loops. Returns 0: its payload is the *value bytes of the job from
 * *start on, at least one. Or returns a refusal's number: *value is its place and *start is 0.
 */
size_t zaxclover_loop(const uint8_t *job, size_t job_length, size_t n, size_t *start, size_t *value);

/*
 * THE LISTING
 *
 * A line for each record of the body, or the line of the refusal. Both functions return the length of the text, which has
 * no ending zero; as much of it as there is room for stands at the start of `page`, and the later bytes are as before. A
 * null page of length 0 asks for the length alone.
 */

/*
 * The listing of a job, as the program `listing` prints it: the job is sewn into 65,536 bytes of the function's own, so
 * that a longer body is refused with 40. The text has at most ZAXCLOVER_LISTING characters.
 */
size_t zaxclover_list(const uint8_t *job, size_t job_length, uint8_t *page, size_t page_length);

/*
 * The listing of an answer of zaxclover_sew, zaxclover_sew_with_table or zaxclover_sew_for_print, by the number that it
 * returned, the value that it left and the output: for bodies of any length, or where the body is wanted too. With an output
 * of 65,536 bytes that of zaxclover_sew is what zaxclover_list gives. A body's text takes at most three characters a byte.
 * The output must be as sewing left it: of other bytes the text may be billions of characters long, and take its time.
 */
size_t zaxclover_listing(size_t number, size_t value, const uint8_t *out, size_t out_length, uint8_t *page, size_t page_length);

/* What is wrong, in words. */
static inline const char *zaxclover_words(size_t number)
{
    switch (number) {
    case ZAXCLOVER_DONE: return "done";
    case ZAXCLOVER_JOB_TOO_LONG: return "the job is longer than 65,536 bytes";
    case ZAXCLOVER_CUT_SHORT: return "a record is cut short";
    case ZAXCLOVER_WRONG_RECORD: return "unknown kind, wrong length or wrong position of a record, or no Head";
    case ZAXCLOVER_WRONG_FIELD: return "a field is not permitted, or no loop has the number asked for";
    case ZAXCLOVER_LIMIT_PASSED: return "a limit is passed";
    case ZAXCLOVER_BROKEN_JOINT: return "a loop's uses do not join end to start, by point";
    case ZAXCLOVER_ANSWERED_BEFORE: return "the question was answered before";
    case ZAXCLOVER_EQUAL_SENSES: return "two uses of the edge in one sense";
    case ZAXCLOVER_ODD_USES: return "one use of the edge, or an odd number";
    case ZAXCLOVER_SAME_AFTER_SAME: return "round the edge a Same use follows a Same use";
    case ZAXCLOVER_NO_TWIN: return "the use has no twin";
    case ZAXCLOVER_UNANSWERED: return "no record answers a question that was put";
    case ZAXCLOVER_UNDECIDED: return "the answer to a question is undecided";
    case ZAXCLOVER_NORMALS_VANISH: return "normals vanish";
    case ZAXCLOVER_WRONG_RADIAL: return "the radial list is not each use of the edge once";
    case ZAXCLOVER_PAIRS_IN_BOUNDARY: return "two pairs of the edge lie in one boundary";
    case ZAXCLOVER_FANS_IN_BOUNDARY: return "two fans at the point lie in one boundary";
    case ZAXCLOVER_FANS_IN_LUMP: return "two fans at the point lie in one lump";
    case ZAXCLOVER_PAIRS_IN_LUMP: return "two pairs of the edge lie in one lump";
    case ZAXCLOVER_VOID_OUTSIDE: return "the void lies in no outer shell";
    case ZAXCLOVER_NO_ROOM: return "the records do not fit the output";
    case ZAXCLOVER_MANY_USES: return "more than two uses of the edge (print shop)";
    case ZAXCLOVER_MANY_FANS: return "more than one fan at the point (print shop)";
    case ZAXCLOVER_SELECTED_TWICE: return "the face is selected twice: the same body and source face";
    case ZAXCLOVER_WRONG_TABLE: return "the joining table is not four bytes, or has an entry that is not permitted";
    default: return "refused for an unknown reason";
    }
}

#ifdef __cplusplus
}
#endif

#endif
