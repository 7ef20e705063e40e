/* wasi-libc's signal.h lacks what xz's headers name, and nothing calls. */
#ifndef PEERS_SIGNAL_H
#define PEERS_SIGNAL_H

#define _WASI_EMULATED_SIGNAL
#include_next <signal.h>

typedef unsigned long sigset_t;
int sigprocmask(int how, const sigset_t *set, sigset_t *old);

#endif
