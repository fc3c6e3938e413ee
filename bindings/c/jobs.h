/* Jobs made up from stored ones and a number: damaged, spliced, with hostile counts, of closed edges, or from nothing. */
#ifndef JOBS_H
#define JOBS_H

#include <stddef.h>
#include <stdint.h>

/* No job that is made is longer; a job of more than 65,536 bytes is refused by its length. */
enum { LONGEST = 70000 };

struct job {
    size_t length;
    uint8_t bytes[LONGEST];
};

/* The number of 4 bytes, as in all fields of jobs and bodies. */
uint32_t word(const uint8_t *at);

/*
 * The first face of a job that has body and source face of an earlier one: the record's first byte, or the job's length
 * if there is none. Faces after the 256th are not looked at, since loading goes no further than the 257th.
 */
size_t first_repeat(const uint8_t *bytes, size_t length);

/* Puts a record at a job's end; it has at most 16 fields. */
void put_record(struct job *job, uint32_t kind, const uint32_t *fields, size_t count);

/* The jobs of a file of packed vectors (compare/README.md), as stretches of the file's bytes. */
struct seeds {
    size_t count;
    const uint8_t **at;
    size_t *length;
};

/* 0 if the file cannot be used. */
int read_seeds(const char *name, struct seeds *seeds);

/* Numbers that follow from a state (xorshift). */
uint64_t next_number(uint64_t *state);
size_t below(uint64_t *state, size_t bound);

/* A state for job `index` of a run. */
uint64_t job_state(uint64_t seed, uint64_t index);

/* Makes a job and gives the name of the way in which it was made. */
const char *make_job(const struct seeds *seeds, uint64_t *state, struct job *job);

#endif
