/* What a way to run units provides for host.c. */
#ifndef HOST_H
#define HOST_H

#include <stdint.h>

typedef enum { HOST_PREPARE, HOST_RUN, HOST_SUM } HostCall;

void host_need(int holds, const char *what);          /* else the host ends with status 2 */
uint8_t *host_bytes(const char *name, uint32_t *len); /* a whole file */
double host_milliseconds(void);                       /* of the processor, of this thread */

/* ---- Of the way. */

void host_open(const char *file);                  /* the unit, where it isn't a part of the program */
void host_put(const uint8_t *bytes, uint32_t len); /* the unit's input */
uint32_t host_call(HostCall call, uint32_t operation);

#endif
