/*
 * A host in C that replies to the lines of a script as `nc_replay replay --queries` does, by a region's handle.
 *
 *     script BUNDLES SEATS [acts|runs]
 *
 * It executes nothing. Memory of its own follows the region by the acts that each change writes. After each line both must hold the same
 * bytes, or it says where they differ and ends. With the word `acts` it prints each act below the reply to its line. With `runs` it prints
 * the acts too, but takes those of creations and deletions as runs, and writes them out.
 */
#include "nc_host.h"

#include <stdio.h>
#include <stdlib.h>
#include <string.h>

#define MAX_BUNDLES 4096
#define MAX_SEATS 256
#define MAX_BYTES (MAX_BUNDLES * NC_BUNDLE)
#define MAX_CHOICES 1024
#define MAX_LINE (2 * MAX_BYTES + 64)
#define MAX_RUNS (2 * MAX_BUNDLES + 2)

/* clang-format off */
static const char *const names[] = {
    "ok", "BadBase", "BadLength", "OutOfRange", "NotPermitted", "Crosses", "Bare", "BadTarget", "OutOfMemory", "NoRoom",
    "CutShort", 0, 0, 0, 0, 0, "BadSpan", "NotLive", "NotPermitted", "Boundaries", "PairTouched", "BadTarget",
    0, 0, 0, 0, 0, 0, 0, 0, 0, 0, "NoHandle", "HandleTaken", "BadSeats", "BadSize",
    "NoSeat", "UnderWay", "NotBegun", "WrongLimit", "Occupied", "NoChunk", "GensFull", "NoPlace", "NotBundle",
};
/* clang-format on */

static char line[MAX_LINE];
static uint8_t code[MAX_BYTES], memory[MAX_BYTES];
static NcAct acts[MAX_BYTES + 2], runs[MAX_RUNS];
static uint32_t choices[MAX_CHOICES], places[MAX_CHOICES + 1];
static NcRegion region;
static NcSeat seats[MAX_SEATS];
static uint32_t bundles, seat_count;
static int shows_acts, takes_runs;

static void refused(uint32_t fault, uint32_t at) {
    printf("refused %s", names[fault]);
    if (fault >= NC_NOT_PERMITTED && fault <= NC_BAD_TARGET) {
        printf(" %08x", (unsigned)at);
    }
    printf("\n");
}

/* Makes the acts of a change in memory. A stamp is drawn by the region's own call. */
static void make(size_t count) {
    size_t i;
    for (i = 0; i < count; i++) {
        if (acts[i].kind == NC_PUT) {
            memory[acts[i].at - NC_START] = (uint8_t)acts[i].value;
        }
        if (shows_acts) {
            printf("act %u %08x %u\n", (unsigned)acts[i].kind, (unsigned)acts[i].at, (unsigned)acts[i].value);
        }
    }
}

/* Ends the program where the memory has another byte than the region. */
static void compare(void) {
    uint32_t at;
    for (at = NC_START; at < NC_LIMIT(bundles); at++) {
        NcPlace place = nc_region_place(&region, at);
        if (place.fault != NC_OK || place.byte != memory[at - NC_START]) {
            printf("astray at %08x\n", (unsigned)at);
            exit(1);
        }
    }
}

static void reply(NcChange change) {
    if (change.fault != NC_OK) {
        refused(change.fault, change.at);
        return;
    }
    printf("ok\n");
    make(change.count);
}

/* Writes out runs of a chunk of this code at this base: each act for which they stand. How many there are. */
static size_t write_out(size_t run_count, uint32_t base) {
    size_t count = 0, i;
    unsigned k;
    for (i = 0; i < run_count; i++) {
        NcAct run = runs[i];
        if (run.kind != NC_PUT_RUN && run.kind != NC_STOP_RUN) {
            acts[count++] = run;
            continue;
        }
        for (k = 0; k < NC_BUNDLE; k++) {
            if (run.value >> k & 1) {
                acts[count].kind = NC_PUT;
                acts[count].at = run.at + k;
                acts[count].value = run.kind == NC_PUT_RUN ? code[run.at + k - base] : NC_STOP;
                count++;
            }
        }
    }
    return count;
}

/* How many acts a call wrote as runs, which must not be refused. */
static size_t written(NcChange told) {
    if (told.fault != NC_OK) {
        printf("runs refused: %s\n", names[told.fault]);
        exit(1);
    }
    return told.count;
}

/* The same call with a buffer too short by one act must be refused, with the number of acts that it needs. */
static void must_lack_room(NcChange told, size_t needed) {
    if (told.fault != NC_NO_ROOM || told.count != needed) {
        printf("runs in a buffer too short by one: %s, %lu\n", names[told.fault], (unsigned long)told.count);
        exit(1);
    }
}

static void create(uint32_t base, size_t len) {
    NcChange change = nc_region_create(&region, base, code, len, acts, takes_runs ? 0 : MAX_BYTES + 2);
    if (takes_runs && change.fault == NC_OK) {
        size_t count = written(nc_region_creation_runs(&region, base, runs, MAX_RUNS));
        must_lack_room(nc_region_creation_runs(&region, base, runs, count - 1), count);
        change.count = write_out(count, base);
    }
    reply(change);
}

/* The bytes of a word of pairs of hexadecimal digits, or none for `-`; how many there are. */
static size_t bytes_of(const char *word) {
    size_t len = 0;
    unsigned byte;
    for (; word[0] != '-' && sscanf(word + 2 * len, "%2x", &byte) == 1; len++) {
        code[len] = (uint8_t)byte;
    }
    return len;
}

/* A deletion: the host's memory has the stops before the stamp is drawn. */
static void delete_chunk(uint32_t base) {
    NcChange change = nc_region_begin_delete(&region, base, acts, takes_runs ? 0 : MAX_BYTES + 2);
    NcStamp stamp;
    if (change.fault != NC_OK) {
        refused(change.fault, change.at);
        return;
    }
    if (takes_runs) {
        size_t count = written(nc_region_deletion_runs(&region, runs, MAX_RUNS));
        must_lack_room(nc_region_deletion_runs(&region, runs, count - 1), count);
        change.count = write_out(count, base);
    }
    stamp.stamp = 1 + nc_region_generation(&region).stamp;
    printf("stamp %lu\n", (unsigned long)stamp.stamp);
    make(change.count);
    if (nc_region_end_delete(&region).stamp != stamp.stamp) {
        printf("another stamp\n");
        exit(1);
    }
}

static void check_in(unsigned seat) {
    if (seat >= seat_count || nc_seat_check_in(&seats[seat]) != NC_OK) {
        refused(NC_NO_SEAT, 0);
        return;
    }
    printf("ok\n");
}

static void leave(unsigned seat) {
    if (seat >= seat_count || nc_seat_check_in(&seats[seat]) != NC_OK) {
        refused(NC_NO_SEAT, 0);
        return;
    }
    nc_seat_leave(&seats[seat]);
    printf("ok\n");
}

/* A walk by the choices that are left of the line. */
static void walk(uint32_t start) {
    static const char *const ends[] = {"", "stop", "trampoline", "beyond", "more"};
    size_t count, i;
    const char *word;
    NcWalk told;
    for (count = 0; count < MAX_CHOICES && (word = strtok(NULL, " \n")) != NULL; count++) {
        choices[count] = (uint32_t)strtoul(word, NULL, 16);
    }
    told = nc_region_walk(&region, start, choices, count, places, count + 1);
    if (told.fault != NC_OK) {
        refused(told.fault, 0);
        return;
    }
    printf("walk");
    for (i = 0; i < told.count; i++) {
        printf(" %08x", (unsigned)places[i]);
    }
    printf(" %s\n", ends[told.end]);
}

static void show(NcChunk chunk) {
    uint32_t at;
    if (chunk.retired) {
        printf(" %08x retired %u %lu", (unsigned)chunk.base, (unsigned)chunk.length, (unsigned long)chunk.stamp);
        return;
    }
    printf(" %08x live ", (unsigned)chunk.base);
    for (at = chunk.base; at < chunk.base + chunk.length; at++) {
        printf("%02x", (unsigned)nc_region_place(&region, at).byte);
    }
}

static void dump(void) {
    NcChunk chunk;
    size_t i;
    printf("dump");
    for (i = 0; (chunk = nc_region_chunk(&region, i)).fault == NC_OK; i++) {
        show(chunk);
    }
    printf("\n");
}

static void show_next(uint32_t at) {
    NcChunk chunk = nc_region_chunk_at(&region, at);
    if (chunk.fault != NC_OK) {
        puts("none");
        return;
    }
    printf("chunk");
    show(chunk);
    printf("\n");
}

static void obey(void) {
    char *name = strtok(line, " \n"), *first = strtok(NULL, " \n");
    uint32_t at = first ? (uint32_t)strtoul(first, NULL, 16) : 0;
    unsigned seat = first ? (unsigned)strtoul(first, NULL, 10) : 0;
    if (strcmp(name, "create") == 0) {
        size_t len = bytes_of(strtok(NULL, " \n"));
        create(at, len);
    } else if (strcmp(name, "modify") == 0) {
        size_t len = bytes_of(strtok(NULL, " \n"));
        reply(nc_region_patch(&region, at, code, len, acts, MAX_BYTES + 2));
    } else if (strcmp(name, "delete") == 0) {
        delete_chunk(at);
    } else if (strcmp(name, "checkin") == 0) {
        check_in(seat);
    } else if (strcmp(name, "leave") == 0) {
        leave(seat);
    } else if (strcmp(name, "reclaim") == 0) {
        printf("freed %u\n", (unsigned)nc_region_reclaim(&region).count);
    } else if (strcmp(name, "walk") == 0) {
        walk(at);
    } else if (strcmp(name, "dump") == 0) {
        dump();
    } else if (strcmp(name, "chunk") == 0) {
        show_next(at);
    } else {
        puts("bad line");
    }
}

int main(int count, char **words) {
    uint32_t i;
    if (count < 3) {
        return 2;
    }
    bundles = (uint32_t)strtoul(words[1], NULL, 10);
    seat_count = (uint32_t)strtoul(words[2], NULL, 10);
    shows_acts = count > 3;
    takes_runs = shows_acts && strcmp(words[3], "runs") == 0;
    if (bundles > MAX_BUNDLES || nc_region_new(bundles, seat_count, &region) != NC_OK) {
        return 2;
    }
    memset(memory, NC_STOP, sizeof memory);
    for (i = 0; i < seat_count; i++) {
        if (nc_region_seat(&region, &seats[i]) != NC_OK) {
            return 2;
        }
    }
    while (fgets(line, sizeof line, stdin)) {
        obey();
        compare();
    }
    for (i = 0; i < seat_count; i++) {
        nc_seat_leave(&seats[i]);
    }
    nc_region_free(&region);
    return 0;
}
