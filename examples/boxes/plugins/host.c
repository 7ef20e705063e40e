/* Two plug-ins that don't end in time, one of which another thread kills: host DIVISOR.ELF FIBONACCI.ELF. */
#include "../library.h"

#include <pthread.h>
#include <unistd.h>

static void call(Library *plugin, const char *name, uint32_t a, uint32_t b) {
    NcsEnd end = ncs_call(plugin->box, ncs_symbol(plugin->module, name), NCS_ARGS(a, b));
    printf("%s of %u, %u: %s, %u\n", name, (unsigned)a, (unsigned)b, ncs_how(end.how), (unsigned)end.result);
}

static void *kill_later(void *box) {
    (void)usleep(50000);
    ncs_kill(box);
    return NULL;
}

int main(int argc, char **argv) {
    Library divisor = library_open(argc == 3 ? argv[1] : "", 2 << 20, 60000);
    Library fibonacci = library_open(argc == 3 ? argv[2] : "", 2 << 20, 50);
    pthread_t thread;
    if (pthread_create(&thread, NULL, kill_later, divisor.box) != 0) {
        return 2;
    }
    call(&divisor, "divisor", 12, 0);
    call(&divisor, "divisor", 12, 18); /* the box is dead */
    if (pthread_join(thread, NULL) != 0 || !ncs_reset(divisor.box)) {
        return 2;
    }
    call(&divisor, "divisor", 12, 18);
    call(&fibonacci, "fibonacci", 20, 0);
    call(&fibonacci, "fibonacci", 60, 0);
    return library_close(&divisor) | library_close(&fibonacci);
}
