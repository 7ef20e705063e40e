/* sljit in the sandbox: its code is laid out in bundles and made by the host. sljit includes this for SLJIT_HAVE_CONFIG_PRE. */
#include <nc_code.h>
#include <nc_emit.h>
#include <stddef.h>

/* Code of stops, by which PCRE2 finds out whether there can be code at all. */
static inline void *nc_stops(size_t size) {
    NceCode code;
    void *made;
    nce_begin(&code);
    for (; size != 0; size--) {
        nce_instruction(&code, "\xf4", 1);
    }
    made = nc_code_new(&code, NULL);
    nce_end(&code);
    return made;
}

#define SLJIT_SINGLE_THREADED 1
#define SLJIT_UTIL_SIMPLE_STACK_ALLOCATION 1
#define SLJIT_EXECUTABLE_ALLOCATOR 0
#define SLJIT_MALLOC_EXEC(size, exec_allocator_data) nc_stops(size)
#define SLJIT_FREE_EXEC(ptr, exec_allocator_data) nc_code_free(ptr)
#define SLJIT_EXEC_OFFSET(ptr) 0
#define sljit_free_unused_memory_exec() (void)0
