/* Runs every beginning of the table on this processor: processor [--slice | --controls]. `run` compiles and starts it. */
#include "inside.h"
#include "judge.h"

#include <stdio.h>
#include <string.h>

#define SKIPPED 77
#define SLICE 101 /* one in this many of the beginnings with a SIB */

static void show(const Counts *n) {
    printf("%llu beginnings, %llu instructions, %llu runs: %llu completed, %llu faulted, %llu cut short by the page's end\n",
           (unsigned long long)n->beginnings, (unsigned long long)n->instructions, (unsigned long long)n->runs,
           (unsigned long long)n->completed, (unsigned long long)n->faulted, (unsigned long long)n->cut);
    printf("branches taken %llu, passed %llu; masks %llu; calls %llu; ", (unsigned long long)n->branches_taken,
           (unsigned long long)n->branches_passed, (unsigned long long)n->masks, (unsigned long long)n->calls);
    printf("undefined %llu, all ud2; privileged %llu, all hlt; divisions that always overflow %llu\n", (unsigned long long)n->undefined,
           (unsigned long long)n->privileged, (unsigned long long)n->never);
    printf("%llu differences\n", (unsigned long long)n->wrong);
}

/* Four mutants of the list, in one copy: these and nothing else have to be found. */
static int controls(const List *list) {
    static const struct {
        const char *name;
        uint8_t count, bytes[2];
        int length, flow, reg;
    } mutants[] = {
        {"83 c0 as one byte longer", 2, {0x83, 0xC0}, 1, 0, 0},
        {"69 c0 as one byte shorter", 2, {0x69, 0xC0}, -1, 0, 0},
        {"74 as no branch", 1, {0x74, 0}, 0, NC_FLOW_NEXT, 0},
        {"ff e3 as a jump by the next register", 2, {0xFF, 0xE3}, 0, 0, 1},
    };
    List copy = list_copy(list);
    size_t i, missed = 0, others = 0;
    for (i = 0; i < sizeof mutants / sizeof *mutants; i++) {
        Beginning *b = list_find(&copy, mutants[i].bytes, mutants[i].count);
        b->length = (uint8_t)(b->length + mutants[i].length);
        b->flow = mutants[i].flow ? (uint8_t)mutants[i].flow : b->flow;
        b->reg = (uint8_t)(b->reg + mutants[i].reg);
    }
    judge(&copy, SLICE, NULL);
    for (i = 0; i < sizeof mutants / sizeof *mutants; i++) {
        Beginning *b = list_find(&copy, mutants[i].bytes, mutants[i].count);
        printf("mutant: %s: %s\n", mutants[i].name, b->wrong ? "found" : "MISSED");
        missed += !b->wrong;
        b->wrong = 0;
    }
    for (i = 0; i < copy.count; i++) {
        others += copy.all[i].wrong;
    }
    printf("%lu others differ\n", (unsigned long)others);
    return missed + others != 0;
}

int main(int argc, char **argv) {
    int slice = argc > 1 && strcmp(argv[1], "--slice") == 0;
    const char *refused = inside_begin();
    List list;
    Counts n;
    if (refused != NULL) {
        printf("skipped: the table on the processor: this system refuses %s\n", refused);
        return SKIPPED;
    }
    list = list_beginnings();
    printf("the list has %lu beginnings\n", (unsigned long)list.count);
    fflush(stdout);
    if (argc > 1 && strcmp(argv[1], "--controls") == 0) {
        return controls(&list);
    }
    n = judge(&list, slice ? SLICE : 1, stdout);
    show(&n);
    return n.wrong != 0;
}
