/*
 * Sews a part file and prints the listing of its body.
 *
 * usage: list FILE.job
 *
 * The exit status is 0 if the part is sewn, 1 if it is refused, 2 if the file cannot be used.
 */
#include "sewing.h"

#include <errno.h>
#include <stdio.h>
#include <stdlib.h>
#include <string.h>

static int fail(const char *name, const char *why)
{
    fprintf(stderr, "list: %s: %s\n", name, why);
    return 2;
}

/* Prints the listing of an answer of sewing; gives the exit status. */
static int print_listing(const char *name, size_t number, size_t value, const uint8_t *out, size_t out_length)
{
    size_t length = zaxclover_listing(number, value, out, out_length, NULL, 0);
    uint8_t *page = malloc(length);
    if (page == NULL)
        return fail(name, "no memory for the listing");
    zaxclover_listing(number, value, out, out_length, page, length);
    size_t written = fwrite(page, 1, length, stdout);
    free(page);
    if (written != length || fflush(stdout) != 0)
        return fail("standard output", strerror(errno));
    if (number == ZAXCLOVER_DONE)
        return 0;
    fprintf(stderr, "list: %s: refused %zu: %s\n", name, number, zaxclover_words(number));
    return 1;
}

/* Sews into as many bytes as the body needs. */
static int list(const char *name, const uint8_t *job, size_t job_length)
{
    size_t room = 0;
    size_t value;
    size_t number = zaxclover_sew(job, job_length, NULL, 0, &value);
    uint8_t *out = NULL;
    if (number == ZAXCLOVER_NO_ROOM) {
        room = value;
        out = malloc(room);
        if (out == NULL)
            return fail(name, "no memory for the body");
        number = zaxclover_sew(job, job_length, out, room, &value);
    }
    int status = print_listing(name, number, value, out, room);
    free(out);
    return status;
}

int main(int count, char **words)
{
    /* One byte more than a job may have: a longer job is refused by its length. */
    static uint8_t job[ZAXCLOVER_JOB_BYTES + 1];
    if (count != 2) {
        fprintf(stderr, "usage: list FILE.job\n");
        return 2;
    }
    FILE *file = fopen(words[1], "rb");
    if (file == NULL)
        return fail(words[1], strerror(errno));
    size_t length = fread(job, 1, sizeof job, file);
    int failed = ferror(file);
    fclose(file);
    if (failed)
        return fail(words[1], "cannot be read");
    return list(words[1], job, length);
}
