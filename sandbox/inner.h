/* What the files of this folder share. TRUSTED, NOT PROVED. Numbers in brackets, such as [8], are the duties of docs/EMBEDDING.md. */
#ifndef NCS_INNER_H
#define NCS_INNER_H

#include "nc_host.h"
#include "nc_sandbox.h"

#include <pthread.h>
#include <signal.h>
#include <time.h>

#pragma GCC visibility push(hidden)

#define PAGE 4096u
#define DATA_LEAST 0x10000u  /* below it no address of a box's data is there */
#define STACK_LEAST 0x10000u /* bytes of stack, at least, below the data */
#define STACK_TOP 0x110000u  /* of a module without data */
#define HOST_CODE 0x33u      /* the process's own selectors */
#define HOST_DATA 0x2Bu
#define PAGE_FAULT 14
#define GENERAL_PROTECTION 13

/* Trampolines, by the bundle of the zone in which each is, and further reasons why a thread came out. */
enum { OUT_RETURN = 1, OUT_EXIT = 2, OUT_CALLBACK = 8, OUT_END = OUT_CALLBACK + NCS_CALLBACKS };
enum { OUT_TRAP = 0x10000, OUT_TICK = 0x20000, OUT_SIGNALS = 0x30000, OUT_LOST = 0x40000 };
enum { EAX, ECX, EDX, EBX, ESP, EBP, ESI, EDI };

typedef struct Live Live;

/* ---- mask.c: how a thread that is inside keeps the handlers of others away [21] */

/* Whether the mask is on while the thread is outside, and each system call is a SIGSYS before it is made. */
enum { CALLS_ALLOWED, CALLS_DISPATCHED };

typedef struct Mask {
    volatile uint8_t selector; /* one of these; the system reads it at each system call, if that is armed */
    volatile int armed;
    uint32_t how;       /* NCS_SIGNALS_BLOCKED, .. */
    uint64_t hosts;     /* the host's own mask, while another one is on */
    unsigned outs;      /* how often the thread came out since a system call was last dispatched */
    unsigned doubled;   /* how often the number of those was doubled after which the mask stays on */
    int is_useless;     /* the system dispatches no calls */
    volatile int looks; /* at the handlers before the next way in */
    unsigned entries;   /* since the last look */
} Mask;

struct Thread;
int ncs_mask_in(struct Thread *thread);   /* whether the thread can go in now */
void ncs_mask_out(struct Thread *thread); /* after each way out, before any code of the host's */
void ncs_mask_end(struct Thread *thread); /* before the thread's memory is freed */
void ncs_mask_set(uint64_t mask);
int ncs_mask_is_kept(NcsRefusal *why); /* the promise, if this thread has made it */
/* In handlers: whether signals of others wait; the host's mask is on again at the return; whether a SIGSYS was such a system call. */
int ncs_mask_waits(const struct Thread *thread);
void ncs_mask_take_back(struct Thread *thread, void *context);
int ncs_mask_on_call(struct Thread *thread, const siginfo_t *info, void *context);

/* ---- switch.S */

/* A call under way on a thread, and what it found. */
typedef struct Frame {
    NcsBox *box;
    uint64_t deadline; /* of the call around it */
    uintptr_t stack;   /* on the host's stack; a call within it lies below */
    int nested;        /* in a call of the same box */
} Frame;

/* A thread of the host that calls boxes. switch.S expects the first fields where they are. The fields marked volatile are shared with the
   handlers, which run on this thread. */
typedef struct Thread {
    uint32_t reg[8];
    uint32_t place, code_selector; /* a far pointer */
    uint64_t host_stack;
    uint32_t why, data_selector;
    uint32_t flags;             /* with which it goes in, if it serializes */
    uint32_t serializes;        /* at its next way in */
    void *landing;              /* ncs_switch_landing */
    uint32_t trap, fault_at;    /* of OUT_TRAP: its interrupt, and the linear address of a page fault, else 0 */
    uint32_t at_stop;           /* of OUT_TRAP: whether it was a stop of the code's own */
    uint32_t life;              /* of the process when it was prepared */
    uint32_t texts;             /* ncs_texts when it last serialized */
    volatile uint64_t used;     /* of its processor time, in nanoseconds, at the last tick while calls were under way */
    volatile uint64_t deadline; /* of the innermost call */
    NcsBox *volatile box;       /* of the innermost call */
    volatile unsigned depth;
    volatile int ticking;
    int begins; /* a call that isn't within another one, until its first way in */
    timer_t timer;
    void *stack; /* the alternate stack that the library made, or NULL */
    size_t stack_len;
    Mask mask;
    unsigned seat;                   /* the one that it had last in live code, and tries first */
    Live *seated;                    /* the code of which it has that one, else NULL */
    uint32_t met_at;                 /* where it went back to an instruction whose stop was gone, since it went in; else 0 */
    uint64_t met_changes, met_stops; /* the count of changes then; and how often that has happened */
    Frame frames[NCS_DEPTH_MAX];     /* `depth` of them, the innermost one last */
} Thread;

extern __attribute__((tls_model("initial-exec"))) __thread Thread *ncs_thread;
void ncs_switch_in(Thread *thread);
extern char ncs_switch_out[], ncs_switch_landing[];
void ncs_handler(int sig, siginfo_t *info, void *context); /* it goes on to the next */
void ncs_handle(int sig, siginfo_t *info, void *context);

/* ---- segments.c: memory and segments below 4 GiB. The calls for segments under ncs_lock */

extern pthread_mutex_t ncs_lock; /* for segments, low memory, the beginning, and the number of a module's users */

int ncs_segments_begin(void); /* whether the system has segments, and which are taken */
uint32_t ncs_segment_code(uint32_t base, uint32_t len);
uint32_t ncs_segment_data(uint32_t base, uint32_t len); /* both: a selector, or 0 if none is left; a length is whole pages [7, 8] */
void ncs_segment_free(uint32_t selector);
uint32_t ncs_low_new(uint32_t len, int protection, int file); /* its address, or 0; of a file, or with -1 of zeros. Under ncs_lock */
void ncs_low_free(uint32_t at, uint32_t len);                 /* never under a lock */
int ncs_low_empty(uint32_t at, uint32_t len);                 /* whether its pages are as new; never under a lock */
int ncs_low_keep(uint32_t at, uint32_t len);                  /* no child gets it */
int ncs_low_seal(uint32_t at, uint32_t len);                  /* the same, and makes it executable, and no longer writable */
int ncs_base_zero_new(uint32_t len); /* whether all from DATA_LEAST up to `len` is the caller's now, without access. Under ncs_lock */
int ncs_base_zero_close(void); /* whether nobody else has a page below DATA_LEAST, or gets one. If not, it takes none. Under ncs_lock */
void ncs_base_zero_free(uint32_t len); /* never under a lock */

/* ---- process.c and threads.c: what has to be there before anybody enters */

extern uint32_t ncs_landing_at; /* a page below 4 GiB that leads to ncs_switch_landing */
extern uint32_t ncs_texts;      /* how many modules got their text, atomic */

extern volatile uint32_t *ncs_life_page; /* atomic */
/* A number that each child by fork has of its own, 0 in another child, and before the first module. */
static inline uint32_t ncs_life(void) {
    const volatile uint32_t *page = __atomic_load_n(&ncs_life_page, __ATOMIC_SEQ_CST);
    return page != NULL ? *page : 0;
}
int ncs_may_begin(NcsRefusal *why); /* whether this isn't a child of which the library has learned nothing */
int ncs_prepare(NcsRefusal *why);   /* whether this process can have a module or a box now */
void ncs_unprepare(void);           /* after ncs_prepare, of what wasn't made. The first one leaves nothing behind */
void *ncs_refuse(NcsRefusal *why, uint32_t kind, const char *sentence);            /* NULL */
int ncs_refuse_fault(NcsRefusal *why, uint32_t kind, uint32_t fault, uint32_t at); /* 0; NCS_NO_MEMORY if the fault says so */
int ncs_refuse_signal(NcsRefusal *why, uint32_t kind, int sig);                    /* 0 */
void ncs_must(int good, const char *what);                                         /* what can't be, and must not pass unseen */
Thread *ncs_thread_get(void);                                                      /* the calling thread, prepared; NULL if it can't be */
int ncs_thread_has_stack(void);        /* whether it has an alternate stack now that is a good one [22] */
int ncs_thread_watch(Thread *thread);  /* starts the ticks, once depth is above 0; whether they run */
void ncs_thread_count(Thread *thread); /* reads its processor time */
int ncs_threads_begin(void);
void ncs_threads_end(void);

/* ---- signals.c and handlers.c */

#define TICK_SIGNAL (SIGRTMAX - 1)
#define MILLISECOND 1000000ull /* nanoseconds */
#define TICK (10 * MILLISECOND)
#define SIGNALS 65
#define SIGNAL_BIT(sig) (1ull << ((sig)-1))
#define FIRST_OF_LIBC 32 /* pthread_cancel's; and behind it the one of setuid */
#define LAST_OF_LIBC 33

extern struct sigaction ncs_before[SIGNALS]; /* what handled this library's signals before */

int ncs_is_killed(const Thread *thread); /* the box of its innermost call, or one around it */
int ncs_is_over(const Thread *thread);   /* whether this call is to end, or one around it, with which it ends too */
int ncs_signals_begin(void);
void ncs_signals_end(void);
int ncs_signals_unblock(void);             /* those of this library, in this thread [24] */
uint64_t ncs_signals_own(void);            /* the bits of those that stay unblocked while a thread is inside */
int ncs_signals_lost(void);                /* the number of a signal of this library that has another handler by now, or 0 */
int ncs_signals_dispatch(void);            /* whether SIGSYS is this library's now */
int ncs_signals_of_libc(void);             /* whether glibc's own two handlers are there, and have SA_ONSTACK */
int ncs_signals_promised(NcsRefusal *why); /* whether each handler has SA_ONSTACK [21] */

/* ---- elf.c */

#define SEGMENTS 32u /* of a file, at most */

/* A module's file, or its code alone. The file's numbers were judged, so that all of this is within it. */
typedef struct Image {
    uint8_t *bytes; /* a copy */
    size_t len;
    uint32_t code_at, code_len, entry;
    size_t code_offset;
    NcSegment segments[SEGMENTS];
    size_t segment_count; /* of a file; code alone has none */
    uint32_t data_begin, data_end;
    size_t symbols, symbol_count, names, names_len; /* where they are in the file */
} Image;

const char *ncs_elf_read(Image *image);                                          /* NULL, or what is wrong */
uint32_t ncs_elf_symbol(const Image *image, const char *name);                   /* 0 if there is none */
const char *ncs_elf_function(const Image *image, uint32_t at, uint32_t *offset); /* NULL if there is none */
void ncs_elf_functions(const Image *image, NcsTell tell, void *user);
void ncs_elf_copy_data(const Image *image, uintptr_t to); /* each segment of data to its address, counted from `to` */

/* ---- changes.c: code that changes while boxes run it */

#define SEATS 256u

/* Aligned to lines of the cache, so that threads that go in and out don't slow each other down. */
typedef struct Seat {
    NcSeat handle;
    int taken; /* by a thread that is inside, or that checks in for it; atomic */
} __attribute__((aligned(64))) Seat;

struct Live {
    NcRegion region;      /* under the lock */
    pthread_mutex_t lock; /* around a call on the region with its acts [28] */
    uint8_t *writable;    /* the text, from place 0, mapped a second time */
    uint8_t *staged;      /* what isn't filled of it, executable where no box reaches */
    uint32_t filled;      /* bytes of the text, from place 0, that have pages; written under the lock, atomic */
    uint32_t retired;     /* chunks that are deleted and not yet freed; under the lock */
    uint64_t changes;     /* odd while acts are being made; atomic [25] */
    unsigned calls;       /* how many are under way; atomic */
    unsigned given;       /* seats; written under the lock, atomic */
    unsigned seat_count;  /* of the region */
    Seat seats[SEATS];
};

void ncs_live_lock(Live *live);
void ncs_live_unlock(Live *live);

/* What a thread that is inside has met at a place where the processor says that a stop may be. */
enum { MET_STOP, MET_FAULT, MET_NOTHING }; /* the last: it goes back to its instruction */
int ncs_live_meet(Live *live, Thread *thread, uint32_t place);

/* ---- livecode.c */

int ncs_live_fill(NcsModule *module, uint32_t end); /* under the lock: whether the text has pages up to there now */
void ncs_live_free(NcsModule *module);              /* NULL is allowed in it */

/* ---- seats.c */

uint32_t ncs_live_begin(Live *live); /* NCS_RETURNED if one more call is under way now, or why it isn't */
void ncs_live_end(Live *live);
void ncs_seat_take(Live *live, Thread *thread); /* and checks in: directly before the way in, in a call that was begun [16, 17, 18] */
void ncs_seat_leave(Thread *thread);
uint32_t ncs_seats_reclaim(Live *live); /* under its lock */

/* ---- area.c */

int ncs_area_clear(NcsBox *box); /* deletes the chunks there. Whether it has */

/* ---- modules.c and boxes.c */

struct NcsModule {
    Image image;
    uint32_t life;                     /* of the process that made it */
    int users;                         /* itself and its boxes; under ncs_lock */
    uint32_t text_at, limit, selector; /* the linear address of place 0, and the limit of the code */
    Live *live;                        /* NULL if the text never changes */
    uint32_t room;                     /* of live code: where it begins, behind the file's code */
};

/* What boxes have that share their memory. */
typedef struct Memory {
    uint32_t at, selector; /* the linear address of its address 0, which may be 0 */
    int is_base_zero;
    uint32_t heap; /* where its free part begins; atomic */
    NcsSpan area;  /* in which their code may change code; written once, under ncs_lock */
    int has_area;  /* under ncs_lock */
    NcsBox *boxes; /* a list by `next`, under ncs_lock */
} Memory;

struct NcsBox {
    NcsModule *module;
    NcsLimits limits;
    Memory *memory;
    NcsBox *next;
    uint32_t data_at; /* the memory's */
    uint32_t stack;   /* from where it grows down */
    Thread *owner;    /* whose call is under way; atomic */
    int killed;       /* atomic */
    int denied, dead;
    uint32_t nest_at; /* the stack pointer that the code left at its last call of the host: untrusted */
    NcsEnd end;       /* what left it dead */
    uint32_t reg[8];  /* the code's then: untrusted */
    unsigned callback_count;
    struct {
        NcsCallback function;
        void *user;
        unsigned args;
    } callbacks[NCS_CALLBACKS];
};

NcsModule *ncs_module_new(const void *bytes, size_t len, NcsRefusal *why); /* with a copy of these bytes, and no text yet */
uint32_t ncs_bundles_for(uint32_t bundles);                                /* of the region whose guard is behind so many [7] */
void ncs_zone_lay(uint8_t *text);                                          /* trampolines, and stops everywhere else below NC_START [11] */
void ncs_module_drop(NcsModule *module);                                   /* one user less */
void ncs_calls_abandon(Thread *thread);                                    /* those under way, which nothing returns to */
int ncs_box_has(const NcsBox *box, uint64_t at, uint64_t len);
uint8_t *ncs_box_data(const NcsBox *box, uint32_t at);

/* Whether it isn't that of a process that has forked. */
static inline int ncs_module_is_ours(const NcsModule *module) {
    return module->life == ncs_life();
}

/* Whether it is this thread's now. */
static inline int ncs_box_claim(NcsBox *box, Thread *thread) {
    Thread *nobody = NULL;
    return __atomic_compare_exchange_n(&box->owner, &nobody, thread, 0, __ATOMIC_SEQ_CST, __ATOMIC_SEQ_CST);
}

/* What its thread has done with it comes before what the next one does. */
static inline void ncs_box_release(NcsBox *box) {
    __atomic_store_n(&box->owner, NULL, __ATOMIC_RELEASE);
}

#pragma GCC visibility pop

#endif
