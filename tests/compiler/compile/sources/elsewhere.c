/* The variables that threads.c and threads.cc find elsewhere. */

_Thread_local int elsewhere = 30;
_Thread_local int kept_elsewhere = 40;

int *place_elsewhere(void) {
    return &elsewhere;
}
