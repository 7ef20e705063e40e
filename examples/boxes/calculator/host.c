/* A calculator: host [FORMULA].. A thread runs a formula while another one patches a number in it and deletes it. Then each FORMULA gets
   the place, and is called with 5. */
#include "../library.h"
#include "compile.h"

#include <pthread.h>
#include <semaphore.h>

static const NcsAt at = {0x10000};
static Library live;
static Code code;
static sem_t came[3]; /* counts 3 * 5 + 4, 3 * 5 + 1000, and any other result */

static void *run(void *unused) {
    while ((live.end = ncs_call(live.box, at, NCS_ARGS(5))).how == NCS_RETURNED) {
        (void)sem_post(&came[live.end.result == 19 ? 0 : live.end.result == 1015 ? 1 : 2]);
    }
    return unused;
}

int main(int argc, char **argv) {
    NcsRefusal why;
    pthread_t thread;
    uint8_t number[NUMBER_LEN];
    live = library_of("live code", ncs_module_live(127, 2, &why), &why, 2 << 20, 1000);
    compile_number(number, 1000);
    int good = sem_init(&came[0], 0, 0) == 0 && sem_init(&came[1], 0, 0) == 0 && sem_init(&came[2], 0, 0) == 0 &&
               compile(&code, "3 * x + 4") && ncs_create(live.module, at, code.bytes, code.len, NULL) &&
               pthread_create(&thread, NULL, run, NULL) == 0 && sem_wait(&came[0]) == 0 &&
               ncs_patch(live.module, (NcsAt){at.at + code.numbers[1]}, number, sizeof number, NULL) && sem_wait(&came[1]) == 0 &&
               ncs_delete(live.module, at, NULL) && pthread_join(thread, NULL) == 0 && ncs_reclaim(live.module) == 1;
    printf("changed: %d, %s, with other results: %d\n", good, ncs_how(live.end.how), sem_trywait(&came[2]) == 0);
    for (int k = 1; k < argc && good && ncs_reset(live.box); k++) {
        int made = compile(&code, argv[k]) && ncs_create(live.module, at, code.bytes, code.len, NULL);
        live.end = ncs_call(live.box, at, NCS_ARGS(5)); /* without code there are stops */
        printf("%s: %s, %u\n", argv[k], ncs_how(live.end.how), (unsigned)live.end.result);
        good = !made || (ncs_delete(live.module, at, NULL) && ncs_reclaim(live.module) == 1);
    }
    return library_close(&live) || !good;
}
