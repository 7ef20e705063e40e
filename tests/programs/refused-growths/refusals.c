/*
 * The library's calls that take memory, and others that take none, each made once: refusals [CALL].
 *
 * The line `call` is written directly before a call and the line `answer` directly after it: tests/programs/refused-growths refuses
 * allocations between these two lines. Then come the fault and what stands after the call. A call that lacked memory is made once more,
 * with ample memory, and has to leave what it leaves otherwise. Without CALL each call is made in turn; ample.txt is what is printed then.
 *
 * A new call that takes memory needs here a function that makes it, one that shows the state after it, and a line of `calls`. Its output
 * goes by hand into ample.txt. TAKES of tests/programs/refused-growths gets a line with the state after a refusal.
 */
#define NC_FAULT_NAMES
#include "nc_host.h"

#include <elf.h>
#include <stdbool.h>
#include <stdio.h>
#include <stdlib.h>
#include <string.h>
#include <unistd.h>

#define BUNDLES 4u
#define LIMIT NC_LIMIT(BUNDLES)
#define MOST_CHUNKS 8003u                                   /* of a list */
#define LIST_BUNDLES(chunks) (128 + 2 * (chunks) + BUNDLES) /* one page, and every other bundle */
#define ROOM (2 * NC_BUNDLE + 2)                            /* acts, enough for each chunk */
#define UNTOUCHED UINT32_MAX                                /* what a buffer has where nothing was written into it */

/* Code without a byte of zeros, so that a text can hold it. */
#define NOPS3 "\x90\x90\x90"
#define NOPS9 NOPS3 NOPS3 NOPS3
#define NOPS27 NOPS9 NOPS9 NOPS9
#define NOPS30 NOPS27 NOPS3
#define PAIR "\x83\xE0\xE0\xFF\xE0"               /* and eax, -32; jmp *eax */
#define NUMBER "\xB8\x01\x01\x01\x01"             /* mov eax, 01010101 */
#define JUMP "\xEB\x1E" NOPS30                    /* to the next bundle */
#define RETURN "\xC3" NOPS30 "\x90"               /* refused */
#define JUMPS "\xEB\x3C" NOPS30 NOPS30 "\xEB\xC0" /* at both ends of two bundles, each to the other */
#define JUMP8 JUMP JUMP JUMP JUMP JUMP JUMP JUMP JUMP
#define JUMP64 JUMP8 JUMP8 JUMP8 JUMP8 JUMP8 JUMP8 JUMP8 JUMP8
#define ASTRAY "\xEB\xFF" NOPS30                              /* refused: into itself */
#define SEVERAL "\xEB\xFE" NUMBER PAIR NOPS9 NOPS9 "\x90\x90" /* a jump to itself, and some more */

/* A text as bytes and their number: two arguments. */
#define BYTES(text) (const uint8_t *)(text), strlen(text)

/* What a call finds: no region; one of four bundles; a larger one, with a list of chunks; one of four, and vetted code; one in which the
   code is a chunk; and that with both seats given. */
typedef enum Stand { NO_REGION, REGION, LIST, VETTED, CHUNK, SEATS } Stand;

typedef struct Call {
    const char *name;
    const char *code;
    Stand stand;
    uint32_t chunks;        /* of the list: the code at every other bundle, from the second one on */
    uint32_t bundle;        /* where the call's code begins */
    uint32_t (*make)(void); /* its fault; what it answers besides is printed */
    void (*show)(void);     /* what stands after it */
} Call;

static const char *code;
static uint32_t base;
static NcRegion region;
static NcSeat seats[2];
static NcVetted vetted;
static NcWalk walked;
static bool taken[LIST_BUNDLES(MOST_CHUNKS)]; /* the bundles of a list's region that have to hold a chunk */

static struct {
    NcAct acts[ROOM];
    uint8_t marks[2 * NC_BUNDLE];
    uint32_t places[3];
    uint8_t image[BUNDLES * NC_BUNDLE];
} buffers;

static void need(bool holds) {
    if (!holds) {
        fputs("refusals: a call can't be made\n", stderr);
        exit(2);
    }
}

/* ---- Calls that take memory */

static uint32_t vet(void) {
    return nc_host_vet(base, LIMIT, BYTES(code)).fault;
}
static uint32_t vet_many(void) {
    return nc_host_vet(base, NC_LIMIT(100), BYTES(code)).fault;
}
static uint32_t mark(void) {
    return nc_host_marks(base, LIMIT, BYTES(code), buffers.marks, sizeof buffers.marks).fault;
}
static uint32_t image(void) {
    return nc_host_image(base, BYTES(code), buffers.image, sizeof buffers.image).fault;
}
static uint32_t new_region(void) {
    return nc_region_new(BUNDLES, 1, &region);
}
static uint32_t seat(void) {
    return nc_region_seat(&region, &seats[0]);
}
static uint32_t create(void) {
    return nc_region_create(&region, base, BYTES(code), buffers.acts, ROOM).fault;
}
static uint32_t new_vetted(void) {
    return nc_vetted_new(base, LIMIT, BYTES(code), &vetted).fault;
}
static uint32_t load(void) {
    return nc_region_load(&region, &vetted, buffers.acts, ROOM).fault;
}

static uint32_t create_in_list(void) {
    uint32_t fault = create();
    taken[(base - NC_START) / NC_BUNDLE] |= fault == NC_OK;
    return fault;
}

static uint32_t walk(void) {
    static const uint32_t choices[2];
    walked = nc_region_walk(&region, base, choices, 2, buffers.places, 3);
    return walked.fault;
}

/* ---- Calls that take none */

static void tell(const char *what, uint32_t fault) {
    printf("%s: %s\n", what, nc_fault_name(fault));
}

static void patch(const char *what, uint32_t place, const char *bytes) {
    NcAct acts[3 * NC_BUNDLE];
    tell(what, nc_region_patch(&region, base + place, BYTES(bytes), acts, sizeof acts / sizeof *acts).fault);
}

static uint32_t patches(void) {
    patch("another number", 2, "\xB8\x02\x01\x01\x01");
    patch("other lengths", 2, "\xEB\xFE" NOPS3);
    patch("another register", 7, "\x83\xE1\xE0\xFF\xE1");
    patch("a jump to the limit", 0, "\xEB\x7E");
    patch("a jump to the next bundle", 0, "\xEB\x1E");
    patch("across a bundle's end", 31, "\x90\x90");
    patch("outside", 32, "\x90");
    patch("a return", 12, "\xC3");
    tell("delete outside", nc_region_begin_delete(&region, base + NC_BUNDLE, NULL, 0).fault);
    return NC_OK;
}

static void reclaim(void) {
    NcCount freed = nc_region_reclaim(&region);
    printf("freed: %u, %s\n", freed.count, nc_fault_name(freed.fault));
}

/* The chunk is free once one seat has checked in and the other one has left. */
static uint32_t retire(void) {
    tell("delete", nc_region_begin_delete(&region, base, NULL, 0).fault);
    printf("stamp: %u\n", (unsigned)nc_region_end_delete(&region).stamp);
    reclaim();
    tell("check in", nc_seat_check_in(&seats[0]));
    reclaim();
    nc_seat_leave(&seats[1]);
    reclaim();
    return NC_OK;
}

/* Every other chunk of a list leaves it. Nobody was given a seat, so the reclaim checks in for each. */
static uint32_t retire_list(void) {
    unsigned stamps = 0;
    for (uint32_t bundle = 1; bundle < LIST_BUNDLES(MOST_CHUNKS); bundle += 4) {
        if (taken[bundle]) {
            need(nc_region_begin_delete(&region, NC_START + bundle * NC_BUNDLE, NULL, 0).fault == NC_OK);
            stamps += nc_region_end_delete(&region).stamp == stamps + 1;
            taken[bundle] = false;
        }
    }
    printf("stamps: %u\n", stamps);
    reclaim();
    return NC_OK;
}

static uint32_t tell_runs(void) {
    printf("length of the first instruction: %u\n", nc_host_decode(BYTES(code)).length);
    printf("runs of the creation: %zu\n", nc_region_creation_runs(&region, base, buffers.acts, ROOM).count);
    tell("delete", nc_region_begin_delete(&region, base, NULL, 0).fault);
    printf("runs of the deletion: %zu\n", nc_region_deletion_runs(&region, buffers.acts, ROOM).count);
    return nc_region_end_delete(&region).fault;
}

/* A file with a segment of code, which is its headers, and one of memory alone. */
static uint32_t read_file(void) {
    /* clang-format off */
    struct {
        Elf32_Ehdr header;
        Elf32_Phdr segments[2];
    } file = {
        {.e_ident = {0x7F, 'E', 'L', 'F', ELFCLASS32, ELFDATA2LSB, EV_CURRENT}, .e_type = ET_EXEC, .e_machine = EM_386,
         .e_version = EV_CURRENT, .e_phoff = sizeof file.header, .e_phentsize = sizeof(Elf32_Phdr), .e_phnum = 2},
        {{.p_type = PT_LOAD, .p_vaddr = NC_START, .p_filesz = NC_BUNDLE, .p_memsz = NC_BUNDLE, .p_flags = PF_R | PF_X},
         {.p_type = PT_LOAD, .p_vaddr = 2 * NC_START, .p_memsz = NC_BUNDLE, .p_flags = PF_R | PF_W}},
    };
    /* clang-format on */
    NcSegment segments[2];
    NcSegments found = nc_host_elf((const uint8_t *)&file, sizeof file, segments, 1);
    printf("segments: %zu\n", found.count);
    tell("with room for one", found.fault);
    return nc_host_elf((const uint8_t *)&file, sizeof file, segments, 2).fault;
}

/* ---- What stands after a call */

static char mark_char(uint32_t mark) {
    return mark == NC_UNMARKED ? '.' : mark == NC_PLAIN ? 'p' : mark == (uint8_t)UNTOUCHED ? '?' : (char)('0' + mark - NC_MASKED(0));
}

static void show_marks(void) {
    for (size_t i = 0; i < sizeof buffers.marks; i++) {
        putchar(mark_char(buffers.marks[i]));
    }
    putchar('\n');
}

static void show_image(void) {
    for (size_t i = 0; i < sizeof buffers.image; i++) {
        printf("%02x%s", buffers.image[i], i % NC_BUNDLE == NC_BUNDLE - 1 ? "\n" : "");
    }
}

static void show_nothing(void) {}

static void show_acts(void) {
    unsigned written = 0;
    for (size_t i = 0; i < ROOM; i++) {
        written += buffers.acts[i].kind != UNTOUCHED;
    }
    printf("acts: %u\n", written);
}

static void show_bundle(uint32_t at) {
    printf("%08x ", at);
    for (uint32_t i = 0; i < NC_BUNDLE; i++) {
        printf("%02x", nc_region_place(&region, at + i).byte);
    }
    putchar(' ');
    for (uint32_t i = 0; i < NC_BUNDLE; i++) {
        putchar(mark_char(nc_region_place(&region, at + i).mark));
    }
    putchar('\n');
}

/* Four bundles, and each chunk. */
static void show_region(void) {
    NcChunk chunk = nc_region_chunk(&region, 0);
    if (chunk.fault == NC_NO_HANDLE) {
        puts("no region");
        return;
    }
    for (uint32_t i = 0; i < BUNDLES; i++) {
        show_bundle(base + i * NC_BUNDLE);
    }
    for (size_t i = 1; chunk.fault == NC_OK; i++) {
        printf("chunk %08x length %u %s\n", chunk.base, chunk.length, chunk.retired ? "retired" : "live");
        chunk = nc_region_chunk(&region, i);
    }
}

static bool is_live(NcChunk chunk, uint32_t bundle) {
    return chunk.fault == NC_OK && chunk.base == NC_START + bundle * NC_BUNDLE && chunk.length == NC_BUNDLE && !chunk.retired;
}

/* The bundle holds the code, or stops. */
static bool holds(uint32_t bundle, bool is_taken) {
    for (uint32_t i = 0; i < NC_BUNDLE; i++) {
        if (nc_region_place(&region, NC_START + bundle * NC_BUNDLE + i).byte != (is_taken ? (uint8_t)code[i] : NC_STOP)) {
            return false;
        }
    }
    return true;
}

/* The number of chunks that a list has to have, how many chunks and bundles are wrong, and one bundle. */
static void show_list(void) {
    size_t chunks = 0;
    unsigned wrong = 0;
    for (uint32_t bundle = 0; nc_region_place(&region, NC_START + bundle * NC_BUNDLE).fault == NC_OK; bundle++) {
        wrong += taken[bundle] && !is_live(nc_region_chunk(&region, chunks), bundle);
        wrong += !holds(bundle, taken[bundle]);
        chunks += taken[bundle];
    }
    wrong += nc_region_chunk(&region, chunks).fault != NC_NO_CHUNK;
    show_acts();
    printf("chunks: %zu, wrong: %u\n", chunks, wrong);
    show_bundle(base);
}

static void show_change(void) {
    show_acts();
    show_region();
}

static void show_seat(void) {
    tell("check in", nc_seat_check_in(&seats[0]));
}

static void show_vetted(void) {
    tell("load", nc_region_load(&region, &vetted, NULL, 0).fault);
    show_region();
}

/* The place of a chunk that was freed is taken again. */
static void show_reused(void) {
    tell("create", create());
    show_region();
}

static void show_walk(void) {
    for (size_t i = 0; i < 3; i++) {
        if (buffers.places[i] != UNTOUCHED) {
            printf("place %08x\n", buffers.places[i]);
        }
    }
    printf("end %u\n", walked.end);
    show_region();
}

/* ---- All calls */

static const Call calls[] = {
    {"vet", JUMP, NO_REGION, 0, 0, vet, show_marks},
    {"vet-return", RETURN, NO_REGION, 0, 0, vet, show_marks},
    {"vet-many", JUMP64 JUMP JUMP, NO_REGION, 0, 0, vet_many, show_marks},
    {"vet-many-astray", JUMP64 JUMP ASTRAY, NO_REGION, 0, 0, vet_many, show_marks},
    {"marks-pair", NOPS27 PAIR, NO_REGION, 0, 0, mark, show_marks},
    {"marks-jumps", JUMPS, NO_REGION, 0, 0, mark, show_marks},
    {"image", JUMP, NO_REGION, 0, 1, image, show_image},
    {"file", JUMP, NO_REGION, 0, 0, read_file, show_nothing},
    {"region", JUMP, NO_REGION, 0, 0, new_region, show_region},
    {"seat", JUMP, REGION, 0, 0, seat, show_seat},
    {"create", JUMP, REGION, 0, 0, create, show_change},
    {"create-pages", JUMPS, LIST, 0, 127, create, show_change},
    {"vetted", JUMP, REGION, 0, 0, new_vetted, show_vetted},
    {"load", JUMP, VETTED, 0, 0, load, show_change},
    {"walk", JUMP, CHUNK, 0, 0, walk, show_walk},
    {"retire", JUMP, SEATS, 0, 0, retire, show_reused},
    {"patches", SEVERAL, CHUNK, 0, 0, patches, show_region},
    {"runs", JUMP, CHUNK, 0, 0, tell_runs, show_change},
    {"65th-first", JUMP, LIST, 64, 0, create_in_list, show_list},
    {"65th-between", JUMP, LIST, 64, 64, create_in_list, show_list},
    {"65th-last", JUMP, LIST, 64, 128, create_in_list, show_list},
    {"254th-last", JUMP, LIST, 253, 506, create_in_list, show_list},
    {"8004th-first", JUMP, LIST, 8003, 0, create_in_list, show_list},
    {"8004th-between", JUMP, LIST, 8003, 8004, create_in_list, show_list},
    {"8004th-last", JUMP, LIST, 8003, 16006, create_in_list, show_list},
    {"retire-list", JUMP, LIST, 513, 0, retire_list, show_list},
};

/* The list's chunks, in ascending order. */
static void prepare_list(uint32_t chunks) {
    memset(taken, 0, sizeof taken);
    for (uint32_t bundle = 1; bundle < 2 * chunks; bundle += 2) {
        need(nc_region_create(&region, NC_START + bundle * NC_BUNDLE, BYTES(code), NULL, 0).fault == NC_OK);
        taken[bundle] = true;
    }
}

static void prepare(const Call *call) {
    Stand stand = call->stand;
    code = call->code;
    base = NC_START + call->bundle * NC_BUNDLE;
    memset(&buffers, 0xFF, sizeof buffers);
    need(stand == NO_REGION || nc_region_new(stand == LIST ? LIST_BUNDLES(call->chunks) : BUNDLES, 2, &region) == NC_OK);
    prepare_list(call->chunks);
    need(stand != VETTED || new_vetted() == NC_OK);
    need(stand < CHUNK || nc_region_create(&region, base, BYTES(code), NULL, 0).fault == NC_OK);
    need(stand < SEATS || (seat() == NC_OK && nc_region_seat(&region, &seats[1]) == NC_OK));
}

/* Writes at once, past the buffer in which all else that is printed waits: tests/lib/refuse.c counts these lines. */
static void write_line(const char *words) {
    char line[32];
    int size = snprintf(line, sizeof line, "%s\n", words);
    need(write(STDOUT_FILENO, line, (size_t)size) == size);
}

static void show(const Call *call, uint32_t fault) {
    puts(nc_fault_name(fault));
    call->show();
}

static void make(const Call *call) {
    prepare(call);
    write_line(call->name);
    write_line("call");
    uint32_t fault = call->make();
    write_line("answer");
    if (fault == NC_OUT_OF_MEMORY) {
        show(call, fault);
        fault = call->make();
    }
    show(call, fault);
    fflush(stdout);
    nc_region_free(&region);
    nc_seat_leave(&seats[0]);
    nc_seat_leave(&seats[1]);
    nc_vetted_free(&vetted);
}

int main(int argc, char **argv) {
    static char buffer[1 << 14];
    setvbuf(stdout, buffer, _IOFBF, sizeof buffer);
    for (size_t i = 0; i < sizeof calls / sizeof calls[0]; i++) {
        if (argc < 2 || strcmp(argv[1], calls[i].name) == 0) {
            make(&calls[i]);
        }
    }
    return 0;
}
