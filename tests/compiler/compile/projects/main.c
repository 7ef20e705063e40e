/* A program over a library: it ends with the number of its answers that are wrong. */
#ifdef HAVE_CONFIG_H
#include "config.h"
#if SIZEOF_LONG != 4 || !HAVE_STDDEF_H || HAVE_PRINTF || HAVE_STDIO_H_OF_ANOTHER
#error "configure has found something else than what there is for the sandbox"
#endif
#endif
#include "numbers.h"

void host_exit(int status);

static const unsigned numbers[] = {2, 3, 5, 7};

__attribute__((section(".text.start"))) void start(void) {
    host_exit((sum(numbers, 4) != 17) + (product(numbers, 4) != 210) + (WORDS != sizeof numbers));
}
