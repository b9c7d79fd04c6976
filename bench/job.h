/*
 * What the sides in C have in common: the job that they are given, and what they print at its end.
 *
 * Standard input has a count in four bytes, lowest first, and a sheet, whose events are gone through as many times.
 */
#ifndef JOB_H
#define JOB_H

#include "second.h"

enum { MASTER_LENGTH = 4096 };

struct job {
    uint32_t times;
    const uint32_t *list; /* the sheet's numbers; the set-up's come first */
    struct mc_setup setup;
    struct mc_stores stores; /* as a sheet begins */
};

/* False where there is no job; what is to be said of it is then printed. */
bool read_job(struct job *job);

void print_number(uint64_t number);
void print_digest(const uint8_t *bytes, size_t length);

/* The tally and digests of both stores, as benchrun prints them. */
void print_end(const struct mc_tally *tally, const struct mc_stores *stores);

#endif
