/* All that the target `calls` knows of the sources of nc-run. */
#ifndef SEAM_H
#define SEAM_H

#include "nc_sandbox.h"

/* Gives a box the calls of nc_run.h, as nc-run does with --dir, or with --dir-rw and --write. */
void seam_begin(NcsModule *module, NcsBox *box, const char *folder, int writable, uint64_t most);

/* What nc_memory has to return. */
uint32_t seam_memory_end(void);

/* Closes what seam_begin has opened. The program's own files are closed by then. */
void seam_end(void);

#endif
