/* The folder of the program of the target `calls`. It lies so deep below another one that every path out of it ends where it is seen. */
#ifndef FOLDER_H
#define FOLDER_H

#include <stddef.h>

#define FOLDER_PARTS 7u /* of a path, at most: fewer than the folders above */

/* Makes the folders, once in a process. They are removed when the process ends well. */
void folder_begin(void);

/* The folder, and the one above it. Both paths are absolute, and have no links. */
const char *folder_path(void);
const char *folder_above(void);

/* A part of a path, by a number: a name that is there or isn't, a link, one that leads out, `..`. */
const char *folder_part(unsigned number);

/* How many files, folders, links and other things are in it. */
unsigned folder_count(void);

/* Gives it its first contents again. */
void folder_restore(void);

/* Whether nothing outside of the folder has changed; whether nothing in it has, since it was restored; and whether what is in it now is
   regular files and folders without special modes, and no more links and pipes than there were. */
int folder_outside_is_same(void);
int folder_inside_is_same(void);
int folder_inside_is_good(void);

#endif
