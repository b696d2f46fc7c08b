/* A team: several machines over one heap, each in a thread of its own, that all run the same programs. */
#ifndef LISP_TEAM_H
#define LISP_TEAM_H

#include "lisp.h"

enum { MOST_THREADS = 8 };

/* A program, as bytes. */
typedef struct program {
    const char *name; /* told with an error */
    const char *text;
    size_t length;
} program;

/* What is to be run. */
typedef struct team {
    memory_sizes sizes;      /* the threads are sizes.mutators */
    uint32_t every;          /* each machine asks for a collection after so many evaluations; 0 never */
    const program *programs; /* each thread runs all of them, in order */
    size_t count;
    FILE *direct;            /* where one thread prints at once; NULL: what it prints is kept like that of several */
} team;

/* What came of it. */
typedef struct report {
    const char *refused;         /* NULL, or why the heap was not opened or no thread was started */
    char *printed[MOST_THREADS]; /* what each thread printed, with the errors; for free_report */
    bool done[MOST_THREADS];     /* whether it came to the end of all programs */
    memory_counts counts;
    double seconds;   /* of the programs, without opening and closing */
    double processor; /* seconds of processors in that time, those of the threads that collect too */
} report;

void run_team(const team *of, report *came);
void free_report(report *came);

#endif
