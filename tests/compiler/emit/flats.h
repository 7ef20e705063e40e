/* Finished code by nc_flat.h, created and run. */
#ifndef FLATS_H
#define FLATS_H

/* What goes wrong, or NULL. */
const char *flat_trial(void);

#endif
