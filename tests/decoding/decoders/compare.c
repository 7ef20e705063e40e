/* The decoder of the library beside another one: compare FILE [SLICE]. tests/decoding/decoders compiles it with each, and starts it. */
#include "../processor/list.h"
#include "../processor/numbers.h"
#include "other.h"

#include <ctype.h>
#include <stdio.h>
#include <stdlib.h>
#include <string.h>

#define SHOWN 20

/* What is known to differ, and why it isn't the table that is wrong. */
static const struct {
    const char *name; /* as the decoder's name begins */
    uint8_t bytes[3], count, register_only;
    const char *why;
} KNOWN[] = {
    {"Capstone 4", {0x0F, 0x1F}, 2, 1, "it refuses nop with a register; the manual has it, and the processor runs it"},
    {"Capstone 4", {0x66, 0x0F, 0x1F}, 3, 1, "the same of 16 bits"},
};
#define KINDS (sizeof KNOWN / sizeof *KNOWN)

typedef struct Run {
    const char *name;
    uint64_t compared, wrong, known[KINDS];
} Run;

static const char *const REGISTERS[] = {"eax", "ecx", "edx", "ebx", "esp", "ebp", "esi", "edi"};

static int is_word(const char *text, const char *word) {
    size_t n = strlen(word);
    return strncmp(text, word, n) == 0 && !isalnum((unsigned char)text[n]);
}

/* Length, flow, target and register, as the text says them. */
static NcInstruction read_text(const Seen *seen, uint32_t at) {
    NcInstruction i = {NC_OK, seen->length, NC_FLOW_NEXT, 0, 0, 0};
    const char *text = seen->text, *operand = text + strcspn(text, " \t");
    int calls = is_word(text, "call"), jumps = is_word(text, "jmp");
    operand += strspn(operand, " \t");
    if (is_word(text, "hlt") || is_word(text, "ud2")) {
        i.flow = NC_FLOW_STOP;
    }
    if (!calls && text[0] != 'j' && strncmp(text, "loop", 4) != 0) {
        return i;
    }
    for (i.reg = 0; i.reg < 8; i.reg++) {
        if (is_word(operand, REGISTERS[i.reg])) {
            i.flow = calls ? NC_FLOW_INDIRECT_CALL : NC_FLOW_INDIRECT_JUMP;
            return i;
        }
    }
    i.reg = 0;
    i.flow = calls ? NC_FLOW_CALL : jumps ? NC_FLOW_JUMP : NC_FLOW_BRANCH;
    i.rel = (int32_t)((uint32_t)strtoll(operand, NULL, 0) - (seen->relative ? 0 : at + seen->length));
    return i;
}

static int is_known(Run *run, const uint8_t *bytes) {
    size_t k;
    for (k = 0; k < KINDS; k++) {
        if (strncmp(run->name, KNOWN[k].name, strlen(KNOWN[k].name)) == 0 && memcmp(bytes, KNOWN[k].bytes, KNOWN[k].count) == 0 &&
            (!KNOWN[k].register_only || bytes[KNOWN[k].count] >= 0xC0)) {
            run->known[k]++;
            return 1;
        }
    }
    return 0;
}

static void differs(Run *run, const uint8_t *bytes, const NcInstruction *ours, const NcInstruction *theirs, const Seen *seen) {
    unsigned i;
    if (is_known(run, bytes) || ++run->wrong > SHOWN) {
        return;
    }
    printf("DIFFERS:");
    for (i = 0; i < ours->length; i++) {
        printf(" %02x", bytes[i]);
    }
    printf(": length %u flow %u rel %d reg %u; %s: length %u flow %u rel %d reg %u, \"%s\"\n", (unsigned)ours->length, (unsigned)ours->flow,
           (int)ours->rel, (unsigned)ours->reg, run->name, (unsigned)theirs->length, (unsigned)theirs->flow, (int)theirs->rel,
           (unsigned)theirs->reg, seen->text);
}

static void compare(Run *run, const uint8_t *bytes, const NcInstruction *ours, uint32_t at) {
    NcInstruction theirs;
    Seen seen;
    size_t i;
    memset(&seen, 0, sizeof seen);
    other_look(bytes, at, &seen);
    for (i = 0; seen.text[i] != 0; i++) {
        seen.text[i] = (char)tolower((unsigned char)seen.text[i]);
    }
    theirs = read_text(&seen, at);
    run->compared++;
    if (seen.length == 0 || theirs.length != ours->length || theirs.flow != ours->flow || theirs.rel != ours->rel ||
        theirs.reg != ours->reg) {
        differs(run, bytes, ours, &theirs, &seen);
    }
}

/* Each instruction in turn: into the file, or else to the other decoder. */
static void go_through(const List *list, unsigned of_so_many, FILE *file, Run *run) {
    uint8_t bytes[LONGEST];
    uint32_t at = FIRST_AT;
    size_t i, k;
    for (i = 0; i < list->count; i++) {
        for (k = 0; (!list->all[i].sib || i % of_so_many == 0) && numbers_fill(&list->all[i], k, bytes); k++) {
            NcInstruction ours = nc_host_decode(bytes, LONGEST);
            if (file != NULL) {
                fwrite(bytes, 1, ours.length, file);
            } else {
                compare(run, bytes, &ours, at);
            }
            at += ours.length;
        }
    }
}

int main(int argc, char **argv) {
    unsigned of_so_many = argc > 2 ? (unsigned)atoi(argv[2]) : 1;
    FILE *file = argc > 1 ? fopen(argv[1], "wb") : NULL;
    List list = list_beginnings();
    Run run;
    size_t k;
    if (file == NULL) {
        return 2;
    }
    memset(&run, 0, sizeof run);
    go_through(&list, of_so_many, file, NULL);
    fclose(file);
    run.name = other_begin(argv[1]);
    go_through(&list, of_so_many, NULL, &run);
    printf("%s: %llu instructions compared, %llu differ", run.name, (unsigned long long)run.compared, (unsigned long long)run.wrong);
    for (k = 0; k < KINDS; k++) {
        if (run.known[k] != 0) {
            printf("; known: %llu, %s", (unsigned long long)run.known[k], KNOWN[k].why);
        }
    }
    printf("\n");
    return run.wrong != 0;
}
