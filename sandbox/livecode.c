/* Modules whose code changes: the text twice in memory, of which only what is used has pages. TRUSTED, NOT PROVED. [1 to 5] */
#define _GNU_SOURCE
#include "inner.h"

#include <errno.h>
#include <fcntl.h>
#include <linux/membarrier.h>
#include <stdlib.h>
#include <string.h>
#include <sys/mman.h>
#include <sys/syscall.h>
#include <unistd.h>

#ifndef MFD_NOEXEC_SEAL
#define MFD_NOEXEC_SEAL 8u
#endif
#ifndef MADV_POPULATE_WRITE
#define MADV_POPULATE_WRITE 23
#endif
#define GROWTH (256u << 10) /* bytes of text that get pages at once */

/* A file without a name. It is no program, which some systems ask for; its pages may be executed all the same. Older kernels don't know
   this. */
static int nameless_file(void) {
    int file = memfd_create("nc_sandbox", MFD_CLOEXEC | MFD_NOEXEC_SEAL);
    return file < 0 && errno == EINVAL ? memfd_create("nc_sandbox", MFD_CLOEXEC) : file;
}

/* A file of this length for the text, or -1. It has no pages yet. */
static int make_file(uint32_t len, NcsRefusal *why) {
    int file = nameless_file();
    if (file < 0 && errno != EMFILE && errno != ENFILE && errno != ENOMEM) {
        ncs_refuse(why, NCS_BAD_SYSTEM, "the system has no files in memory");
    } else if (file < 0 || ftruncate(file, len) != 0) {
        ncs_refuse(why, NCS_NO_MEMORY, "there is no memory for the code");
    } else {
        return file;
    }
    if (file >= 0) {
        (void)close(file);
    }
    return -1;
}

/* A mapping of the whole text, out of reach of 32-bit addresses, and of a forked child. */
static uint8_t *map_high(int file, uint32_t len, int protection) {
    void *at = mmap(NULL, len, protection, MAP_SHARED, file, 0);
    if (at == MAP_FAILED) {
        return NULL;
    }
    if ((uint64_t)(uintptr_t)at >> 32 == 0 || madvise(at, len, MADV_DONTFORK) != 0) {
        (void)munmap(at, len);
        return NULL;
    }
    return at;
}

/* Takes pages for a part of the text. A system before Linux 5.14 can't, with EINVAL. */
static int take_pages(uint8_t *at, uint32_t len) {
    int made;
    do {
        made = madvise(at, len, MADV_POPULATE_WRITE) == 0;
    } while (!made && errno == EINTR);
    return made;
}

/* The part of the text behind what is filled, up to `to`, becomes executable where boxes run it. It is full of stops. Where that fails, no
   page may be there [4]. */
static int show(NcsModule *m, uint32_t to) {
    Live *live = m->live;
    uint32_t len = to - live->filled;
    void *at = (void *)((uintptr_t)m->text_at + live->filled);
    if (mremap(live->staged + live->filled, len, len, MREMAP_MAYMOVE | MREMAP_FIXED, at) == at) {
        __atomic_store_n(&live->filled, to, __ATOMIC_SEQ_CST);
        return 1;
    }
    ncs_must(mmap(at, len, PROT_NONE, MAP_PRIVATE | MAP_ANONYMOUS | MAP_NORESERVE | MAP_FIXED_NOREPLACE, -1, 0) == at || errno == EEXIST,
             "memory of the text is lost");
    return 0;
}

/* Under the lock. Where the text has no page it has no code, and a thread that comes there stops [4]. */
int ncs_live_fill(NcsModule *m, uint32_t end) {
    Live *live = m->live;
    uint32_t to = (end + GROWTH - 1) / GROWTH * GROWTH;
    to = to < m->limit ? to : m->limit;
    if (end <= live->filled) {
        return 1;
    }
    if (!take_pages(live->writable + live->filled, to - live->filled)) {
        return 0;
    }
    memset(live->writable + live->filled, NC_STOP, to - live->filled);
    return show(m, to);
}

/* Where the file's code begins, or else the room. */
static uint32_t first_code(const NcsModule *m) {
    return m->image.code_len != 0 ? m->image.code_at : m->room;
}

/* Writes code to the file of the text, whose new pages get it without being cleared first. */
static int write_code(int file, const uint8_t *code, uint32_t len, uint32_t at) {
    while (len != 0) {
        ssize_t wrote = pwrite(file, code, len, at);
        if (wrote == 0 || (wrote < 0 && errno != EINTR)) {
            return 0;
        }
        if (wrote > 0) {
            code += wrote;
            at += (uint32_t)wrote;
            len -= (uint32_t)wrote;
        }
    }
    return 1;
}

/* The zone, and a file's code, which the region has as its first chunk, with stops around it. Plain stores do, since nothing is executable
   yet. The pages below the code and those behind are there. Whether there was memory for the others. */
static int fill_first(const NcsModule *m, int file, uint32_t len) {
    const Image *image = &m->image;
    uint32_t begin = first_code(m), end = begin + image->code_len;
    uint8_t *text = m->live->writable;
    if (!write_code(file, image->bytes + image->code_offset, image->code_len, begin)) {
        return 0;
    }
    ncs_zone_lay(text);
    memset(text + NC_START, NC_STOP, begin - NC_START);
    memset(text + end, NC_STOP, len - end);
    return 1;
}

/* Under ncs_lock. What is executed can never be written, and what is written never executed. */
static int map_executable(NcsModule *m, uint32_t len) {
    m->text_at = ncs_low_new(m->limit, PROT_NONE, -1);
    m->selector = m->text_at != 0 && ncs_low_keep(m->text_at, m->limit) ? ncs_segment_code(m->text_at, m->limit) : 0;
    return m->selector != 0 && show(m, len);
}

/* The pages up to the file's code; or all, where the system can't take some later. How much of the text has pages then, or 0. */
static uint32_t take_first(const NcsModule *m, int file) {
    if (take_pages(m->live->writable, (first_code(m) + PAGE - 1) / PAGE * PAGE)) {
        return m->room;
    }
    return errno == EINVAL && fallocate(file, 0, 0, m->limit) == 0 ? m->limit : 0;
}

/* Maps the text. What is below the room has pages. */
static int map_text(NcsModule *m, int file) {
    uint32_t len;
    int made;
    m->live->writable = map_high(file, m->limit, PROT_READ | PROT_WRITE);
    m->live->staged = m->live->writable != NULL ? map_high(file, m->limit, PROT_READ | PROT_EXEC) : NULL;
    len = m->live->staged != NULL ? take_first(m, file) : 0;
    if (len == 0 || !fill_first(m, file, len)) {
        return 0;
    }
    (void)pthread_mutex_lock(&ncs_lock);
    made = map_executable(m, len);
    (void)pthread_mutex_unlock(&ncs_lock);
    return made;
}

static int can_serialize(void) {
    return syscall(SYS_membarrier, MEMBARRIER_CMD_REGISTER_PRIVATE_EXPEDITED_SYNC_CORE, 0, 0) == 0;
}

/* No call that may end the thread is made under the lock. */
static int make_text(NcsModule *m, NcsRefusal *why) {
    int file, made;
    if (!can_serialize()) {
        ncs_refuse(why, NCS_BAD_SYSTEM, "the system has no membarrier that makes processors serialize");
        return 0;
    }
    file = make_file(m->limit, why);
    if (file < 0) {
        return 0;
    }
    made = map_text(m, file);
    (void)close(file);
    if (!made) {
        ncs_refuse(why, NCS_NO_MEMORY, "there is no room for the code, below 4 GiB and above, or no segment left");
    }
    return made;
}

/* A file's code is a chunk before any of the text is executable, so its creation needs no acts. */
static int create_first(NcsModule *m, NcsRefusal *why) {
    const Image *image = &m->image;
    NcChange made;
    if (image->code_len == 0) {
        return 1;
    }
    made = nc_region_create(&m->live->region, image->code_at, image->bytes + image->code_offset, image->code_len, NULL, 0);
    return made.fault == NC_OK || ncs_refuse_fault(why, NCS_BAD_CODE, made.fault, made.at);
}

/* One seat more than there are calls. */
static int make_region(NcsModule *m, uint32_t bundles, uint32_t calls, NcsRefusal *why) {
    Live *live = aligned_alloc(sizeof(Seat), sizeof *live);
    uint32_t fault;
    if (live == NULL) {
        return ncs_refuse_fault(why, NCS_NO_MEMORY, NC_OUT_OF_MEMORY, 0);
    }
    memset(live, 0, sizeof *live);
    m->live = live;
    live->seat_count = calls + 1;
    if (pthread_mutex_init(&live->lock, NULL) != 0) {
        return ncs_refuse_fault(why, NCS_NO_MEMORY, NC_OUT_OF_MEMORY, 0);
    }
    fault = nc_region_new(bundles, live->seat_count, &live->region);
    return fault == NC_OK || ncs_refuse_fault(why, NCS_BAD_SYSTEM, fault, 0);
}

/* Makes the text, of which the file's code has what is below the room. The process is prepared only for code that is accepted. */
static int begin(NcsModule *m, uint32_t bundles, uint32_t calls, NcsRefusal *why) {
    bundles = ncs_bundles_for((m->room - NC_START) / NC_BUNDLE + bundles);
    m->limit = NC_LIMIT(bundles);
    if (!make_region(m, bundles, calls, why) || !create_first(m, why) || !ncs_prepare(why)) {
        return 0;
    }
    m->life = ncs_life();
    if (make_text(m, why)) {
        return 1;
    }
    ncs_unprepare();
    return 0;
}

static int judge_live(uint32_t bundles, uint32_t calls, NcsRefusal *why) {
    if (bundles == 0 || bundles >= NC_MAX_BUNDLES) {
        return ncs_refuse(why, NCS_BAD_LIMITS, "the number of bundles isn't 1 to 2097151") != NULL;
    }
    if (calls == 0 || calls > NCS_LIVE_CALLS) {
        return ncs_refuse(why, NCS_BAD_LIMITS, "the number of calls isn't 1 to 255") != NULL;
    }
    return 1;
}

NcsModule *ncs_module_live(uint32_t bundles, uint32_t calls, NcsRefusal *why) {
    NcsModule *m = judge_live(bundles, calls, why) ? ncs_module_new(NULL, 0, why) : NULL;
    if (m == NULL) {
        return NULL;
    }
    m->room = NC_START;
    m->image.data_begin = m->image.data_end = STACK_TOP;
    if (begin(m, bundles, calls, why)) {
        return m;
    }
    ncs_module_drop(m);
    return NULL;
}

/* Where the room behind the file's code begins, or 0 if there is none for so many bundles. Code where none can be is refused later. */
static uint32_t room_behind(const Image *image, uint32_t bundles) {
    uint64_t end = ((uint64_t)image->code_at + image->code_len + PAGE - 1) / PAGE * PAGE;
    uint64_t before = end > NC_START ? (end - NC_START) / NC_BUNDLE : 0;
    return before + bundles < NC_MAX_BUNDLES ? (uint32_t)(NC_START + before * NC_BUNDLE) : 0;
}

NcsModule *ncs_module_live_elf(const void *file, size_t len, uint32_t bundles, uint32_t calls, NcsRefusal *why) {
    NcsModule *m = judge_live(bundles, calls, why) ? ncs_module_new(file, len, why) : NULL;
    const char *wrong;
    if (m == NULL) {
        return NULL;
    }
    wrong = ncs_elf_read(&m->image);
    m->room = wrong == NULL ? room_behind(&m->image, bundles) : 0;
    if (wrong != NULL) {
        ncs_refuse(why, NCS_BAD_FILE, wrong);
    } else if (m->room == 0) {
        ncs_refuse(why, NCS_BAD_LIMITS, "there is no room for so many bundles behind the file's code");
    } else if (begin(m, bundles, calls, why)) {
        return m;
    }
    ncs_module_drop(m);
    return NULL;
}

NcsSpan ncs_room(const NcsModule *m) {
    const NcsSpan none = {{0}, 0}, room = {{m->room}, m->limit - NC_BUNDLE - m->room};
    return m->live != NULL ? room : none;
}

void ncs_live_free(NcsModule *m) {
    Live *live = m->live;
    unsigned k;
    if (live == NULL) {
        return;
    }
    for (k = 0; k < SEATS; k++) {
        nc_seat_leave(&live->seats[k].handle);
    }
    nc_region_free(&live->region);
    if (live->writable != NULL) {
        (void)munmap(live->writable, m->limit);
    }
    if (live->staged != NULL && live->filled < m->limit) {
        (void)munmap(live->staged + live->filled, m->limit - live->filled);
    }
    (void)pthread_mutex_destroy(&live->lock);
    free(live);
}
