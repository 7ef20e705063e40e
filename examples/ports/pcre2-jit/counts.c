/* Linked into a program with --wrap, counts the calls by which it makes and deletes code, and tells at its end. */
#include <nc_run.h>
#include <stdio.h>
#include <stdlib.h>

long long __real_nc_create(unsigned at, const void *from, unsigned len);
long long __real_nc_delete(unsigned at);

static unsigned created, bundles, deleted, refused;

long long __wrap_nc_create(unsigned at, const void *from, unsigned len) {
    long long made = __real_nc_create(at, from, len);
    created += made == 0;
    bundles += made == 0 ? len / 32 : 0;
    refused += made != 0;
    return made;
}

long long __wrap_nc_delete(unsigned at) {
    long long made = __real_nc_delete(at);
    deleted += made == 0;
    refused += made != 0;
    return made;
}

static void tell(void) {
    fprintf(stderr, "%u chunks of %u bundles made, %u deleted, %u refused\n", created, bundles, deleted, refused);
}

__attribute__((constructor)) static void begin(void) {
    if (atexit(tell) != 0) {
        abort();
    }
}
