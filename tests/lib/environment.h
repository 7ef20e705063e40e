/* What the libraries that are loaded below a program (LD_PRELOAD) are told by its environment. */
#include <stdlib.h>

/* The number that a variable gives, or another where it isn't set. */
static long number(const char *name, long otherwise) {
    const char *text = getenv(name);
    return text ? atol(text) : otherwise;
}
