/* What flagging.c lets a test ask for. */
#ifndef FLAGGING_H
#define FLAGGING_H

#include <stdint.h>

enum { DIRECTION = 0x400, NESTED_TASK = 0x4000, ALIGNMENT = 0x40000, FLAGGING_ALL = DIRECTION | NESTED_TASK | ALIGNMENT };

extern uint64_t flagging_flags; /* those of the host at each way in from now on */
extern unsigned flagging_kept;  /* after how many ways out one of them was still set */

#endif
