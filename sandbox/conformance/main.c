/* Tries the host that is linked with it: conformance [SECONDS [SEED [PART]]]. The parts are `process`, what stands in the process;
   `cases`, hostile code; and `random`, random code for so many seconds of a processor, 0 where none are named. A line that tells something
   wrong has it in capitals; the last one counts them. Status 1 if there are any, 77 if the system refuses what the host needs.

   For the library of sandbox/, from the top of the repository and with nc_host built, a minute of random code with the seed 1:

       kit=$(dirname "$(rt doc)") && mkdir -p out
       gcc -std=gnu11 -O2 -pthread -Iinclude -Isandbox sandbox/conformance/[!h]*.c sandbox/conformance/guard.S \
           sandbox/conformance/host_boxes.c sandbox/[a-z]*.c sandbox/switch.S crates/nc_host/out/libnc_host.a "$kit/c/liblibc_c.a" \
           -o out/conformance
       out/conformance 60 1 */
#define _GNU_SOURCE
#include "kit.h"

#include <pthread.h>
#include <signal.h>
#include <stdio.h>
#include <stdlib.h>
#include <string.h>
#include <sys/mman.h>

typedef struct Words {
    double seconds;
    uint64_t seed;
    const char *part; /* NULL for all */
    int status;
} Words;

unsigned kit_wrong;

const char *kit_how(uint32_t how) {
    static const char *const words[] = {"came out", "stopped", "faulted", "late", "refused", "otherwise"};
    return how < sizeof words / sizeof *words ? words[how] : "?";
}

void kit_end_line(const char *wrong) {
    const char *harm = kit_harm;
    kit_harm = NULL;
    wrong = wrong != NULL ? wrong : harm;
    kit_wrong += wrong != NULL;
    printf("%s%s\n", wrong != NULL ? ", " : "", wrong != NULL ? wrong : "");
    (void)fflush(stdout);
}

int kit_missed_limit(const KitBox *box, KitEnd end) {
    return end.how == KIT_FAULTED && end.trap == KIT_PAGE_FAULT && end.data >= box->data_first;
}

int kit_load(KitBox *box, const uint8_t *code, uint32_t len, int protection) {
    if (!kit_host.load(box, code, len)) {
        printf("code that is right");
        kit_end_line("REFUSED");
        return 0;
    }
    kit_canaries_behind(box, protection);
    return 1;
}

void kit_lay(uint8_t *to, uint32_t len, const uint8_t *code, size_t code_len) {
    memset(to, 0x90, len);
    memcpy(to, code, code_len);
}

int kit_load_stop(KitBox *box) {
    static const uint8_t stop = NC_STOP;
    uint8_t code[NC_BUNDLE];
    kit_lay(code, sizeof code, &stop, 1);
    return kit_load(box, code, sizeof code, PROT_READ | PROT_WRITE);
}

void kit_drop(KitBox *box) {
    kit_canaries_leave();
    kit_host.drop(box);
}

/* The thread comes with every signal blocked [24]. */
static int begin(void) {
    sigset_t all;
    const char *lacking;
    if (sigfillset(&all) != 0 || pthread_sigmask(SIG_BLOCK, &all, NULL) != 0) {
        return 2;
    }
    lacking = kit_host.begin();
    if (lacking != NULL) {
        printf("skipped: %s: %s\n", kit_host.name, lacking);
        return KIT_SKIPPED;
    }
    if (!kit_canaries_begin() || !kit_other_begin()) {
        puts("no memory for the kit, or no box");
        return 2;
    }
    return 0;
}

static int wants(const Words *words, const char *part) {
    return words->part == NULL || strcmp(words->part, part) == 0;
}

static void *try_all(void *given) {
    Words *words = given;
    words->status = begin();
    if (words->status != 0) {
        return NULL;
    }
    if (wants(words, "process")) {
        kit_try_process();
    }
    if (wants(words, "cases")) {
        kit_try_refused();
        kit_try_cases();
        kit_try_reaches();
        kit_try_stacks();
        kit_try_jumps();
    }
    if (wants(words, "random") && words->seconds > 0) {
        kit_try_wild(words->seconds, words->seed);
    }
    printf("%u wrong\n", kit_wrong);
    words->status = kit_wrong != 0;
    return NULL;
}

/* The kit's thread has its stack where 32-bit addresses reach. */
int main(int argc, char **argv) {
    Words words = {argc > 1 ? strtod(argv[1], NULL) : 0, argc > 2 ? strtoull(argv[2], NULL, 0) : 1, argc > 3 ? argv[3] : NULL, 2};
    int flags = MAP_PRIVATE | MAP_ANONYMOUS | MAP_FIXED_NOREPLACE;
    void *stack = mmap((void *)(uintptr_t)KIT_STACK_AT, KIT_STACK_LEN, PROT_READ | PROT_WRITE, flags, -1, 0);
    pthread_attr_t how;
    pthread_t thread;
    if (stack != (void *)(uintptr_t)KIT_STACK_AT || pthread_attr_init(&how) != 0 ||
        pthread_attr_setstack(&how, stack, KIT_STACK_LEN) != 0 || pthread_create(&thread, &how, try_all, &words) != 0 ||
        pthread_join(thread, NULL) != 0) {
        puts("no thread with its stack below 4 GiB");
        return 2;
    }
    return fflush(stdout) == 0 ? words.status : 2;
}
