/* The conformance kit: hostile code, and what has to become of it in every host that keeps the duties of docs/EMBEDDING.md. A host is
   plugged in by a struct KitHost: host_boxes.c has the one of the library in sandbox/. Numbers in brackets are duties. */
#ifndef KIT_H
#define KIT_H

#include "nc_host.h"

#include <stddef.h>
#include <stdint.h>

#define KIT_SKIPPED 77
#define KIT_CODE_MAX 1024u /* bytes of code at most, in whole bundles */
#define KIT_PAGE 4096u

enum { KIT_DIVISION_ERROR = 0, KIT_INVALID_OPCODE = 6, KIT_STACK_FAULT = 12, KIT_GENERAL_PROTECTION = 13, KIT_PAGE_FAULT = 14 };

/* How a run ended. */
enum {
    KIT_CAME_OUT, /* by the trampoline `way_out`, or another one that ends a run */
    KIT_STOPPED,  /* at hlt */
    KIT_FAULTED,
    KIT_LATE,     /* its time was over */
    KIT_REFUSED,  /* it called the host with arguments, or with an address to return to, that the host refuses */
    KIT_OTHERWISE /* never right */
};

typedef struct KitEnd {
    uint32_t how;
    uint32_t trap;  /* the interrupt of a stop or fault; else 0 */
    uint32_t place; /* where it stood when it stopped, faulted or was late */
    uint32_t data;  /* of interrupt 14 the address of the data; else 0 */
} KitEnd;

/* Code that is loaded, with memory of its own. Places and addresses are those of its segments; a base is the linear address of 0. */
typedef struct KitBox {
    uint32_t code_base, data_base;
    uint32_t code_at, code_len, code_limit; /* code_at is a bundle start. Below it is code of the host's own, such as a way in */
    uint32_t data_first, data_limit;        /* an address below data_first is in the segment, but has no page */
    uint32_t data_at;                       /* from here on the host keeps nothing there */
    void *own;
} KitBox;

typedef struct KitHost {
    const char *name;
    uint32_t way_out; /* the place of a trampoline that ends a run */
    /* Places of trampolines that call the host. The first one calls kit_called with the word above the return address, and goes back with
       EBX, ESI, EDI and EBP as they were, and ESP above the return address. A host may have none; then no case calls it. */
    const uint32_t *calls;
    unsigned call_count;
    int has_one_box;            /* at a time */
    int live;                   /* the text has a writable mapping, since it is changed while threads run it */
    const char *(*begin)(void); /* NULL, or what the system refuses */
    int (*load)(KitBox *box, const uint8_t *code, uint32_t len); /* whether the code is accepted */
    /* For at most some 50 ms. The run begins with the direction flag clear. */
    KitEnd (*run)(KitBox *box, uint32_t place, uint32_t eax, uint32_t edx);
    int (*renew)(KitBox *box); /* as new, whatever the run did */
    void (*drop)(KitBox *box);
    int (*is_trampoline)(uint32_t place);
} KitHost;

extern const KitHost kit_host;

/* Called by the host at a call of its code; what the code gets in EAX. */
uint32_t kit_called(uint32_t argument);
extern unsigned long kit_calls; /* how many there were */

/* ---- What every run keeps (canaries.c) */

#define KIT_LOW_AT 0x4F000000u /* memory of the host's where 32-bit addresses reach; above the heap of one linked for its addresses */
#define KIT_LOW_LEN 0x10000u
#define KIT_STACK_AT 0x48000000u /* the stack of the thread that runs the kit: there, too */
#define KIT_STACK_LEN 0x100000u
#define KIT_STACK_CANARY (KIT_STACK_AT + 0x8000u) /* the middle of a part of it that the thread doesn't use */

int kit_canaries_begin(void); /* once the stack is there */
/* Memory of the host's directly behind the data and the text, with this protection, while the box is there. */
void kit_canaries_behind(const KitBox *box, int protection);
void kit_canaries_leave(void);
/* Runs, and looks whether anything of the host's has changed: memory, registers, the direction flag. What has is in kit_harm. */
KitEnd kit_run(KitBox *box, uint32_t place, uint32_t eax, uint32_t edx);
extern const char *kit_harm; /* NULL, or what was changed first, until it is told */

/* A second box, whose memory has to stay as it is; all zeros if the host has one box at a time. */
extern KitBox kit_other;
int kit_other_begin(void);

/* ---- Lines */

extern unsigned kit_wrong;
const char *kit_how(uint32_t how);
/* Ends a line; if something is wrong, it says so. */
void kit_end_line(const char *wrong);
/* Copies code to so many bytes, and fills them with nops. */
void kit_lay(uint8_t *to, uint32_t len, const uint8_t *code, size_t code_len);
/* Loads code that has to be accepted, with memory of the host's behind it. Whether it was; if not, a line says so. */
int kit_load(KitBox *box, const uint8_t *code, uint32_t len, int protection);
int kit_load_stop(KitBox *box); /* a single hlt */
void kit_drop(KitBox *box);
/* Whether a fault is a page fault that no hole below the data explains: then no segment has stopped the access. */
int kit_missed_limit(const KitBox *box, KitEnd end);

/* What is wrong in the process while a box can run, or NULL: pages, segments, handlers, signals (process.c). */
const char *kit_judge_process(const KitBox *box);

/* ---- Trials, each of which prints lines */

void kit_try_refused(void);
void kit_try_process(void);
void kit_try_cases(void);
void kit_try_reaches(void);
void kit_try_stacks(void);
void kit_try_jumps(void);
/* Random code for so many seconds of a processor. The k-th chunk, counted from 0, is the first one of the seed that is greater by k. */
void kit_try_wild(double seconds, uint64_t seed);

#endif
