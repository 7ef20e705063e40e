/* Memory and segments below 4 GiB, where 32-bit bases and limits reach. TRUSTED, NOT PROVED. [6, 7, 8] */
#define _GNU_SOURCE
#include "inner.h"

#include <asm/ldt.h>
#include <errno.h>
#include <string.h>
#include <sys/mman.h>
#include <sys/random.h>
#include <sys/syscall.h>
#include <unistd.h>

#ifndef MADV_DONTNEED_LOCKED
#define MADV_DONTNEED_LOCKED 24
#endif
#define STEP (1u << 20)       /* pieces of low memory begin so far from each other */
#define LOW_BEGIN 0x20000000u /* above what a host that isn't position-independent has below 4 GiB, and above a box at base 0 */
#define LOW_END 0xF0000000u
#define SHIFT_MOST (192u << 20) /* by chance, in pages; so much isn't used where three boxes of 1 GiB fit */
#define PIECE (64u << 20)       /* that is given back at once: the system holds a lock of the process meanwhile */
#define HERE_ONLY (MAP_PRIVATE | MAP_ANONYMOUS | MAP_NORESERVE | MAP_FIXED_NOREPLACE)
#define SELECTOR(entry) ((entry) << 3 | 7u) /* of the local table, for user code */

pthread_mutex_t ncs_lock = PTHREAD_MUTEX_INITIALIZER;

/* ---- Segments */

static uint8_t taken[LDT_ENTRIES];                  /* by this library, or by others when it last looked */
static uint8_t table[LDT_ENTRIES * LDT_ENTRY_SIZE]; /* the local table, as the system shows it */

/* Reads the entries up to `last`. Those that were never made read as 0. */
static int read_table(unsigned last) {
    return (int)syscall(SYS_modify_ldt, 0, table, (size_t)(last + 1) * LDT_ENTRY_SIZE) >= 0; /* an error has 32 bits */
}

static int is_free(unsigned k) {
    static const uint8_t free_entry[LDT_ENTRY_SIZE];
    return memcmp(table + k * LDT_ENTRY_SIZE, free_entry, sizeof free_entry) == 0;
}

int ncs_segments_begin(void) {
    unsigned k;
    if (!read_table(LDT_ENTRIES - 1)) {
        return 0;
    }
    for (k = 0; k < LDT_ENTRIES; k++) {
        taken[k] = taken[k] || !is_free(k);
    }
    return 1;
}

/* An entry that nobody has, or LDT_ENTRIES. Another user of the table may have taken one since the beginning, so each is looked at before
   it is taken. */
static unsigned free_entry(void) {
    unsigned k;
    for (k = 0; k < LDT_ENTRIES; k++) {
        if (taken[k]) {
            continue;
        }
        if (!read_table(k)) {
            return LDT_ENTRIES;
        }
        if (is_free(k)) {
            return k;
        }
        taken[k] = 1;
    }
    return k;
}

/* A segment's limit is in pages, less one. */
static uint32_t segment_new(uint32_t base, uint32_t len, unsigned contents) {
    struct user_desc d;
    unsigned k = free_entry();
    if (k == LDT_ENTRIES) {
        return 0;
    }
    memset(&d, 0, sizeof d);
    d.entry_number = k;
    d.base_addr = base;
    d.limit = len / PAGE - 1;
    d.limit_in_pages = 1;
    d.seg_32bit = 1;
    d.contents = contents;
    d.read_exec_only = contents == MODIFY_LDT_CONTENTS_CODE;
    d.useable = 1;
    if (syscall(SYS_modify_ldt, 0x11, &d, sizeof d) != 0) {
        return 0;
    }
    taken[k] = 1;
    return SELECTOR(k);
}

uint32_t ncs_segment_code(uint32_t base, uint32_t len) {
    return segment_new(base, len, MODIFY_LDT_CONTENTS_CODE);
}

uint32_t ncs_segment_data(uint32_t base, uint32_t len) {
    return segment_new(base, len, MODIFY_LDT_CONTENTS_DATA);
}

/* No thread uses the selector any more, even if one still has it in DS or ES. An entry that the system keeps stays taken. */
void ncs_segment_free(uint32_t selector) {
    struct user_desc d;
    if (selector == 0) {
        return;
    }
    memset(&d, 0, sizeof d);
    d.entry_number = selector >> 3;
    d.read_exec_only = 1;
    d.seg_not_present = 1;
    if (syscall(SYS_modify_ldt, 0x11, &d, sizeof d) == 0) {
        taken[selector >> 3] = 0;
    }
}

/* ---- Memory */

/* Maps it just there. Whether it has; if not, nothing is mapped. */
static int take_at(uint32_t at, uint32_t len, int protection, int file) {
    int flags = file < 0 ? HERE_ONLY : MAP_SHARED | MAP_FIXED_NOREPLACE;
    void *got = mmap((void *)(uintptr_t)at, len, protection, flags, file, 0);
    if (got != (void *)(uintptr_t)at && got != MAP_FAILED) { /* a kernel that doesn't know MAP_FIXED_NOREPLACE */
        (void)munmap(got, len);
    }
    return got == (void *)(uintptr_t)at;
}

/* Where the search for room begins. Untrusted code that learns of a way to use addresses of the host's doesn't know this one, which differs
   from run to run. */
static uint32_t beginning(void) {
    uint32_t chance = 0;
    if (getrandom(&chance, sizeof chance, GRND_NONBLOCK) != sizeof chance) {
        chance = (uint32_t)((uintptr_t)&chance >> 4); /* the system places stacks by chance too */
    }
    return LOW_BEGIN + chance % (SHIFT_MOST / PAGE) * PAGE;
}

uint32_t ncs_low_new(uint32_t len, int protection, int file) {
    static uint32_t least, from;
    uint64_t at;
    unsigned tries;
    least = least != 0 ? least : beginning();
    at = from = from != 0 ? from : least;
    for (tries = 0; tries < (LOW_END - LOW_BEGIN) / STEP; tries++, at += STEP) {
        if (at + len > LOW_END) {
            at = least;
        }
        if (take_at((uint32_t)at, len, protection, file)) {
            from = (uint32_t)(at + (len + STEP - 1) / STEP * STEP);
            return (uint32_t)at;
        }
    }
    return 0;
}

/* Memory that is locked wants a request of its own, from Linux 5.18 on. */
static int empty(uint8_t *at, uint32_t len) {
    return madvise(at, len, MADV_DONTNEED) == 0 || madvise(at, len, MADV_DONTNEED_LOCKED) == 0;
}

/* In pieces, so that nobody who wants memory waits for all of it. */
int ncs_low_empty(uint32_t at, uint32_t len) {
    uint32_t done = 0;
    while (done < len && empty((uint8_t *)(uintptr_t)at + done, len - done < PIECE ? len - done : PIECE)) {
        done += len - done < PIECE ? len - done : PIECE;
    }
    return done == len;
}

void ncs_low_free(uint32_t at, uint32_t len) {
    if (at != 0) {
        (void)ncs_low_empty(at, len);
        (void)munmap((void *)(uintptr_t)at, len); /* fails only where the system has no memory for it; the pages are lost then */
    }
}

int ncs_low_keep(uint32_t at, uint32_t len) {
    return madvise((void *)(uintptr_t)at, len, MADV_DONTFORK) == 0;
}

int ncs_low_seal(uint32_t at, uint32_t len) {
    return mprotect((void *)(uintptr_t)at, len, PROT_READ | PROT_EXEC) == 0 && ncs_low_keep(at, len);
}

/* ---- Base 0

   A load that waits for a load takes 4 cycles where the segment's base is 0, and else 7. Then a box's segment begins where the process's
   own addresses begin, so nothing of the host's may ever be below its end. Its memory is mapped from DATA_LEAST on. What is below is taken
   without access by the first such box, and kept for the others. */

static uint32_t pages_below; /* bytes from address 0 on that nobody else has or gets; under ncs_lock */
static int has_others_below; /* somebody had a page there; under ncs_lock */

/* Whether nobody else can get this page. The system gives the lowest ones to nobody (vm.mmap_min_addr). By the system call itself, since
   ThreadSanitizer's mmap ends a process that has the page 0. */
static int take_page(uint32_t at) {
    long got = syscall(SYS_mmap, (long)at, (long)PAGE, (long)PROT_NONE, (long)HERE_ONLY, -1l, 0l);
    if (got != -1 && got != (long)at) { /* a kernel that doesn't know MAP_FIXED_NOREPLACE */
        (void)munmap((void *)got, PAGE);
        return 0;
    }
    return got != -1 || ((errno == EPERM || errno == EACCES) && madvise((void *)(uintptr_t)at, PAGE, MADV_NORMAL) != 0 && errno == ENOMEM);
}

static void give_pages_back(void) {
    while (pages_below != 0) {
        pages_below -= PAGE;
        (void)munmap((void *)(uintptr_t)pages_below, PAGE);
    }
}

int ncs_base_zero_new(uint32_t len) {
    return !has_others_below && len <= LOW_BEGIN && take_at(DATA_LEAST, len - DATA_LEAST, PROT_NONE, -1);
}

int ncs_base_zero_close(void) {
    while (pages_below < DATA_LEAST && take_page(pages_below)) {
        pages_below += PAGE;
    }
    has_others_below = pages_below < DATA_LEAST;
    if (has_others_below) {
        give_pages_back();
    }
    return !has_others_below;
}

void ncs_base_zero_free(uint32_t len) {
    ncs_low_free(DATA_LEAST, len - DATA_LEAST);
}
