/* Random code, which may do whatever it likes in its box, and nothing else. */
#define _GNU_SOURCE
#include "draw.h"

#include <stdio.h>
#include <string.h>
#include <sys/mman.h>
#include <time.h>

#define BUNDLES 12u
#define LEN (BUNDLES * NC_BUNDLE)
#define RUNS 24u       /* of a chunk */
#define LOOKS_EACH 32u /* chunks to one look at the process */

typedef struct Counts {
    unsigned long chunks, runs, ends[KIT_OTHERWISE + 1];
} Counts;

/* Of a processor, so that a busy machine tries as much. */
static double now(void) {
    struct timespec t = {0, 0};
    (void)clock_gettime(CLOCK_PROCESS_CPUTIME_ID, &t);
    return (double)t.tv_sec + 1e-9 * (double)t.tv_nsec;
}

/* Whether a thread may end there: at an instruction of the code, in code of the host's, or at another bundle start. Only a limit of time
   ends a thread in the middle of a trampoline. */
static int may_end(const KitBox *box, const uint8_t *marks, KitEnd end) {
    uint32_t at = end.place - box->code_at;
    if (at < box->code_len) {
        return marks[at] != NC_UNMARKED;
    }
    if (end.place < NC_START) {
        uint32_t start = end.place & ~(NC_BUNDLE - 1);
        return end.place == start || (end.how == KIT_LATE && kit_host.is_trampoline(start));
    }
    return end.place < box->code_at || (end.place % NC_BUNDLE == 0 && end.place < box->code_limit);
}

static const char *judge(const KitBox *box, const uint8_t *code, const uint8_t *marks, KitEnd end) {
    uint32_t at = end.place - box->code_at;
    int stands = end.how == KIT_STOPPED || end.how == KIT_FAULTED || end.how == KIT_LATE;
    int is_no_stop = end.how == KIT_STOPPED && at < box->code_len && code[at] != NC_STOP;
    return end.how >= KIT_OTHERWISE            ? "ANOTHER END"
         : stands && !may_end(box, marks, end) ? "NO INSTRUCTION IS AT ITS PLACE"
         : is_no_stop                          ? "NO STOP IS AT ITS PLACE"
         : kit_missed_limit(box, end)          ? "A PAGE FAULT BEYOND A LIMIT"
                                               : kit_harm;
}

static const char *run_chunk(Draw *d, KitBox *box, const uint8_t *code, Counts *counts) {
    uint8_t marks[LEN];
    const char *wrong = NULL;
    unsigned k;
    if (nc_host_marks(box->code_at, box->code_limit, code, LEN, marks, LEN).fault != NC_OK) {
        return "CODE IS ACCEPTED THAT ISN'T PERMITTED";
    }
    for (k = 0; k < RUNS && wrong == NULL; k++) {
        uint32_t eax = draw_number(d, box), edx = draw_number(d, box);
        KitEnd end = kit_run(box, box->code_at + NC_BUNDLE * draw(d, BUNDLES), eax, edx);
        wrong = judge(box, code, marks, end);
        counts->runs++;
        counts->ends[end.how < KIT_OTHERWISE ? end.how : KIT_OTHERWISE]++;
        if (wrong != NULL) {
            fprintf(stderr, "run %u: eax %08x edx %08x, %s by %u at %08x, data %08x\n", k, (unsigned)eax, (unsigned)edx, kit_how(end.how),
                    (unsigned)end.trap, (unsigned)end.place, (unsigned)end.data);
        } else if (!kit_host.renew(box)) {
            wrong = "IT ISN'T RENEWED";
        }
    }
    return wrong;
}

/* A chunk that goes wrong is written out. Nothing may access the pages behind the limits: what comes there is a page fault. */
static const char *try_chunk(Draw *d, uint64_t seed, Counts *counts) {
    uint8_t code[LEN];
    const char *wrong;
    unsigned k;
    KitBox box;
    d->random = (seed + 1) * 0x9E3779B97F4A7C15ull;
    draw_code(d, code, LEN);
    if (!kit_load(&box, code, LEN, PROT_NONE)) {
        wrong = "CODE IS REFUSED THAT IS PERMITTED";
    } else {
        wrong = run_chunk(d, &box, code, counts);
        wrong = wrong == NULL && counts->chunks % LOOKS_EACH == LOOKS_EACH - 1 ? kit_judge_process(&box) : wrong;
        kit_drop(&box);
    }
    counts->chunks++;
    for (k = 0; wrong != NULL && k < LEN; k++) {
        fprintf(stderr, "%02x%s", code[k], k % NC_BUNDLE == NC_BUNDLE - 1 ? "\n" : "");
    }
    return wrong;
}

void kit_try_wild(double seconds, uint64_t seed) {
    double end = now() + seconds;
    Counts counts = {0, 0, {0}};
    const char *wrong = NULL;
    Draw d = {1, NULL, 0};
    unsigned k;
    KitBox like;
    if (!kit_load_stop(&like)) {
        return;
    }
    kit_drop(&like); /* another one is where it was */
    d.like = &like;
    while (wrong == NULL && now() < end) {
        wrong = try_chunk(&d, seed++, &counts);
    }
    printf("random code: %s", wrong == NULL ? "as it has to be" : "");
    if (wrong != NULL) {
        printf("seed %llu", (unsigned long long)(seed - 1));
    }
    kit_end_line(wrong);
    printf("counts: %lu chunks, %lu runs", counts.chunks, counts.runs);
    for (k = 0; k < KIT_OTHERWISE; k++) {
        printf(", %lu %s", counts.ends[k], kit_how(k));
    }
    printf(", %lu calls of the host\n", kit_calls);
}
