/* The host's ends of the calls of nc_run.h, by their names, and what they share. TRUSTED, NOT PROVED. */
#ifndef SERVE_H
#define SERVE_H

#include "run.h"

#include "guest/nc_run.h"

/* Every argument is untrusted. */
typedef uint64_t Serve(NcsBox *box, void *user, const uint32_t *args);
Serve call_read, call_write, call_close, call_lseek, call_size, call_list, call_cut, call_flush, call_copy, call_pipe; /* serve.c */
Serve call_open, call_status, call_link, call_enter, call_where, call_make, call_remove, call_rename, call_change;     /* serve_names.c */
Serve call_poll;                                                                                                       /* ready.c */
Serve call_clock, call_memory, call_sleep, call_random, call_terminal;                                                 /* things.c */

/* What a call returns, of a number or an error. */
static inline uint64_t result_of(long long number) {
    return (uint64_t)number;
}

static inline uint64_t failed(int error) {
    return result_of(-(long long)error);
}

/* Copies a path from the box. 0, or an error. */
int serve_path(NcsBox *box, uint32_t at, char path[PATH_MAX]);

/* The first of so many bytes of the box, all of which have to be there; or NULL. There is never NULL for 0 bytes. `piece` is how many a call
   moves at most, since no tick ends a system call. */
void *serve_bytes(NcsBox *box, uint32_t at, uint32_t len, size_t *piece);

#endif
