/* What a target does before the first box of its process. */
#ifndef FIRST_H
#define FIRST_H

/* Makes a first module, box and call, so that what a process and its first thread keep for good is there. Ends the process with SKIPPED,
   and a line that says why, if the system has no boxes. */
void first_begin(void);

#endif
