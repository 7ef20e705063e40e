/* The system calls that musl makes, as far as nc-run has them; the others fail with ENOSYS. Each function has those of one kind. The number
   and the arguments are those of Linux for i386. For sources that see musl's inner headers. */
#ifndef CALLS_H
#define CALLS_H

#include <errno.h>
#include <nc_run.h>
#include "syscall.h"

/* Who has each file, as a user and as a group; the program's number; and how many numbers for files nc-run has. */
enum { BILLION = 1000000000, OWN_ID = 1000, OWN_PROCESS = 1, NUMBERS = 64 };

/* ---- pipes.c */

/* As pipe2. */
long make_pipe(int to[2], int flags);

/* As nc_copy. The copy of a pipe's end waits if that one does. */
long copy_number(int file, int number, int exactly);

/* Whether a file is an end of a pipe whose reads and writes wait. */
int waits_as_pipe(int file);

/* Has the reads and writes of a pipe's end wait, or fail with EAGAIN. EINVAL for another file. */
long set_pipe_wait(int file, int waits);

/* The result of a read or a write that wasn't done whole, where nc-run gave `done`. If it would wait, the program ends. */
long part_done(int file, long done);

/* Prints why, and ends the program as abort does. */
_Noreturn void end_in_deadlock(const char *why, unsigned len);

/* ---- times.c */

/* A wait in nanoseconds, at most some 270 years. `part` counts those parts of which a second has `parts`. EINVAL for what is no time. */
long long wait_of(long long seconds, long long part, long long parts);

/* ---- signals.c */

/* Handles the signals that wait and that a mask lets through. Whether there were any. */
int let_signals(const void *mask);

/* ---- The calls of each kind: their results, or ENOSYS */

long call_of_maps(long number, long a, long b, long c, long d, long e, long f);
long call_of_names(long number, long a, long b, long c, long d, long e);
long call_of_signals(long number, long a, long b, long c);
long call_of_times(long number, long a, long b, long c, long d);
long call_of_polls(long number, long a, long b, long c, long d, long e, long f);

#endif
