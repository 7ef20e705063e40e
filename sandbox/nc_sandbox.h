/*
 * nc_sandbox.h: boxes, in which a process runs untrusted 32-bit code. TRUSTED, NOT PROVED: only nc_host's verdicts on code are proved.
 *
 * A module is code that nc_host has accepted, with its data. A box is an instance of a module. The boxes of a module share its code, and
 * each has data, heap and stack of its own. A box reads and writes its own memory and nothing else. It calls nothing but the call-backs
 * that the host gives it. For Linux on x86-64. docs/SANDBOX.md has an example, and says where each duty of a host is done.
 *
 * Duties of the host that the library can't do for it:
 *   Signals     SIGSEGV, SIGBUS, SIGILL, SIGFPE, SIGTRAP and SIGRTMAX - 1 stay this library's from the first module on, and so does SIGSYS,
 *               unless the host had a handler for it. The library hands on the faults of the host's own code, with flags and mask, to the
 *               handlers that were there before. If one of the first six gets another handler later, calls are refused from the next 10 ms
 *               of processor time on. Until then a fault of untrusted code runs that handler, on whatever stack the code has chosen. The
 *               handlers of all other signals may be anything.
 *   Segments    Nobody else changes an entry of the local descriptor table (modify_ldt) that this library has made.
 *   Memory      Nobody maps memory over this library's (MAP_FIXED), which has the pages below 00010000 from the first box on.
 *   Results     What comes out of a box is untrusted: results, arguments of call-backs, bytes of its memory. Read it once, and judge it.
 *   Call-backs  A call-back returns on the thread and the stack on which it was called, and makes its own calls there. One that returns
 *               elsewhere aborts the process. One that leaves by longjmp or by the end of its thread leaves the box dead. No exception
 *               leaves it: nc_sandbox.hpp catches those of C++.
 *
 * Every call
 *   Threads     Any thread may call. One thread at a time is in a call of a box. A box or module is freed once, and isn't used after that.
 *               No call may be made from a signal handler. A thread makes no call once its thread-specific data was destroyed.
 *   Children    The child of fork() makes modules and boxes of its own. Those of before the fork are refused there, since their code and
 *               time limits stay with the parent. A child by clone or _Fork is refused everything. No child goes on inside a box. A
 *               signal handler doesn't fork while its thread is in a call of this library.
 *   Costs       A process has at most some 3,000 boxes and modules at once, and some 3 GB of memory for them.
 *               A module's text reaches from 0 to the end of its code, and all of it is written. A file whose code lies high can
 *               therefore take up to 64 MiB.
 */
#ifndef NC_SANDBOX_H
#define NC_SANDBOX_H

#include <stddef.h>
#include <stdint.h>

#ifdef __cplusplus
extern "C" {
#endif

typedef struct NcsModule NcsModule;
typedef struct NcsBox NcsBox;

/* An address in a box, of data or of code. It isn't a pointer, so the host can't follow it by mistake. 0 is never a good one. */
typedef struct NcsAt {
    uint32_t at;
} NcsAt;

/* ---- Refusals */

/* Why there is no module, no box or no change of live code. */
enum {
    NCS_OK,
    NCS_BAD_FILE,    /* it isn't an ELF file as nc-cc makes it */
    NCS_BAD_CODE,    /* nc_host refuses the code: `fault` and `at` say why and where */
    NCS_BAD_LIMITS,  /* a limit is 0 or too large, or there is less memory than the data needs */
    NCS_BAD_HANDLER, /* the thread has chosen NCS_SIGNALS_PROMISED, and a handler lacks SA_ONSTACK: `at` is its signal's number */
    NCS_NO_MEMORY,   /* there is no memory, no room below 4 GiB, or no segment left */
    NCS_BAD_SYSTEM,  /* the system refuses what boxes need, or the module or process has forked: the sentence says what */
    NCS_NOT_LIVE,    /* the module's code never changes */
    NCS_BAD_CHANGE,  /* nc_host refuses a change of live code: `fault` says why */
    NCS_LOST_HANDLER /* a signal of this library has another handler by now: `at` is its number */
};

/* A refusal, after which everything is as it was, the host's handlers and its memory below 4 GiB included. */
typedef struct NcsRefusal {
    uint32_t kind;        /* one of these, NCS_OK if nothing was refused */
    uint32_t fault;       /* of refused code or a refused change, one of nc_host.h; else 0 */
    uint32_t at;          /* the address of that fault, or the number of a signal; else 0 */
    const char *sentence; /* what is wrong, in a constant text */
} NcsRefusal;

/* ---- Modules */

/*
 * Makes a module from an ELF file, which is copied. The file has one segment of code, at or above 00010000. nc_host judges it before any
 * of it can be executed. Its other segments are the data with which each box begins. They begin at or above 00020000, since the stack lies
 * below them. `nc-cc --data 00110000` leaves a stack of 1 MiB. Returns null if the file is refused. `why` gets the refusal, or is null.
 */
NcsModule *ncs_module_elf(const void *file, size_t len, NcsRefusal *why);

/* Makes a module from bytes of code alone, which begins at 00010000. Its boxes have a stack of 1 MiB, below 00110000. Returns null if the
   code is refused. */
NcsModule *ncs_module_code(const void *code, size_t len, NcsRefusal *why);

/* Returns the address of a global symbol of the file, or 0 if the file has no such symbol. A file may name any number. So ncs_call and the
   calls for memory judge the address. This call and the next ones take the first 1048576 symbols of a file, and no others. */
NcsAt ncs_symbol(const NcsModule *module, const char *name);

/* Returns the file's entry, which `ld -e` sets, or 00010000 for code alone. A file may name any number here too. */
NcsAt ncs_entry(const NcsModule *module);

/* Returns the name of the function in which an address of the code lies, and writes the distance in bytes from its beginning to `offset`.
   The function is the nearest symbol of code at or below the address, of those with a name fit to be printed. Such a name has 1 to 255
   printable ASCII characters, none of them a space, and doesn't begin with $ or .L. From the table's end on the call looks at 4096 names, at
   most. If there is no such symbol, it returns null and leaves `offset` as it is. The name is valid until the module is freed. */
const char *ncs_function_at(const NcsModule *module, NcsAt at, uint32_t *offset);

/* As ncs_function_at, for a file whose code was refused. The name is in the file, which nobody changes meanwhile. */
const char *ncs_function_in(const void *file, size_t len, NcsAt at, uint32_t *offset);

/* Tells each name that ncs_function_at may return, and its address, in the order of the file. */
typedef void (*NcsTell)(void *user, NcsAt at, const char *name);
void ncs_functions(const NcsModule *module, NcsTell tell, void *user);

/* Frees a module. Its code and data stay until its last box is freed. Null is allowed. */
void ncs_module_free(NcsModule *module);

/* ---- Live code */

/*
 * Make a module whose code is created, patched and deleted while its boxes run. Both return null if they are refused.
 *   ncs_module_live      Its text has room for `bundles` bundles of 32 bytes, 1 to 2097151, from 00010000 on. Its boxes have a stack of
 *                        1 MiB, below 00110000.
 *   ncs_module_live_elf  It begins as a file that ncs_module_elf would take. The file's code is the first chunk, and the room for `bundles`
 *                        bundles begins on the next page. Refused with NCS_BAD_LIMITS if there isn't so much below 64 MiB.
 * The room may be up to a page longer. At first all of it is stops, and takes no memory. It takes memory up to the last bundle that is
 * created, in steps of 256 KiB, and keeps that until the module is freed. Before Linux 5.14 it takes all of it at once.
 * At most `calls` calls of the module's boxes may be under way at once, 1 to NCS_LIVE_CALLS, and calls within calls count. A reclaim looks
 * at each of them. Another number of bundles or calls is refused with NCS_BAD_LIMITS.
 */
#define NCS_LIVE_CALLS 255u
NcsModule *ncs_module_live(uint32_t bundles, uint32_t calls, NcsRefusal *why);
NcsModule *ncs_module_live_elf(const void *file, size_t len, uint32_t bundles, uint32_t calls, NcsRefusal *why);

/* Bytes of the address space of code, in whole bundles. */
typedef struct NcsSpan {
    NcsAt from;
    uint32_t len;
} NcsSpan;

/* Returns the room of a module with live code. Its length is 0 if the code never changes. */
NcsSpan ncs_room(const NcsModule *module);

/*
 * The changes. Any thread may make them, also in a call-back. They wait for each other, and never for a thread inside. Each returns 1 if
 * the change is made. Otherwise it returns 0, changes nothing, and writes the refusal to `why`, which may be null. Code is copied before it
 * is judged, so it may lie in memory of a box.
 *   ncs_create  puts a chunk of whole bundles at a multiple of 32, where no chunk is, live or deleted and not yet reclaimed.
 *   ncs_patch   replaces whole instructions of a chunk, within a bundle, with others of the same lengths.
 *   ncs_delete  removes the chunk that begins at `base`. A thread in it stops at its next instruction. Its span can't be used yet.
 * A thread inside that meets a change under way waits until that is made, and goes on. The wait counts as its time. The process is aborted
 * if the system refuses, in the midst of a change, a barrier that it had granted.
 */
int ncs_create(NcsModule *module, NcsAt base, const void *code, size_t len, NcsRefusal *why);
int ncs_patch(NcsModule *module, NcsAt at, const void *code, size_t len, NcsRefusal *why);
int ncs_delete(NcsModule *module, NcsAt base, NcsRefusal *why);

/*
 * Frees the spans of deleted chunks in which no thread can be any more, and returns how many chunks it freed. It waits for nobody inside. A
 * chunk is freed once each thread that was inside when it was deleted has come out. A thread comes out by a return, a call-back, a stop, a
 * fault, a kill or its time limit. So the longest time limit of the module's boxes, in processor time of each thread inside, bounds the
 * wait. In a call-back a thread is outside, however slow that is.
 * A call on its way to a chunk that is meanwhile deleted, reclaimed and replaced may run the new one, from a bundle start on.
 */
uint32_t ncs_reclaim(NcsModule *module);

/* What ncs_hole finds. */
typedef struct NcsHole {
    NcsAt at;      /* where the hole begins; if `len` is 0, where to ask on, or else the end */
    uint32_t len;  /* bytes in which no chunk is */
    uint32_t held; /* bytes of deleted chunks below it, from the address that was asked for, which threads still hold back */
} NcsHole;

/*
 * Finds the first hole of a module's room at or above `from`, up to `to`. If a deleted chunk is in the way, it reclaims. It looks at 256
 * chunks at most, and returns a hole of length 0 if none of them leaves room. A hole is a hint: another thread may take it, and only the
 * creation decides.
 */
NcsHole ncs_hole(NcsModule *module, NcsAt from, NcsAt to);

/* ---- Boxes */

#define NCS_MEMORY_MAX (1u << 30)
#define NCS_DEPTH_MAX 64u

/* What a box may use. */
typedef struct NcsLimits {
    uint32_t memory;       /* bytes. Data, heap and stack are below this address. A multiple of 4096, at most NCS_MEMORY_MAX */
    uint32_t depth;        /* calls that one thread may have under way at once, and those of other boxes count. 1 to NCS_DEPTH_MAX */
    uint32_t milliseconds; /* of processor time of the calling thread, for a call with its call-backs. 1 or more. See NCS_LATE */
} NcsLimits;

/* Makes a box. Its data are as the file has them, and all other memory is 0. Returns null if it is refused. `why` gets the refusal, and may
   be null. */
NcsBox *ncs_box_new(NcsModule *module, const NcsLimits *limits, NcsRefusal *why);

/*
 * Makes a box beside another one, whose memory both use, so that two threads can be in the same data: a compiler's own second thread, or
 * workers. It has a call under way, limits, a kill and call-backs of its own. Its stack grows down from `stack`, a multiple of 16 in that
 * memory, which the host takes by ncs_take. What threads do to each other in their memory is up to the code, which has locked instructions.
 * The boxes have one heap and one area (ncs_code_calls). Any of them resets the memory for all. The memory is freed with the last of them,
 * in any order. Returns null if it is refused.
 */
NcsBox *ncs_box_beside(NcsBox *box, NcsAt stack, uint32_t depth, uint32_t milliseconds, NcsRefusal *why);

/* Gives a box its first memory again, deletes the code that it has made, and revives it. Its call-backs stay. Returns 1 if that is done.
   While a call or another reset of the box or of one beside it is under way it returns 0, and does nothing. If the system refuses, it
   returns 0, and the box is dead. All this holds for the boxes beside it too. */
int ncs_reset(NcsBox *box);

/* Ends the call that is under way, with the calls that its call-backs have made, or else the next one, with NCS_KILLED. Any thread may ask
   for it. It doesn't wait: the thread comes out within some 20 ms of its processor time, or when its call-back returns. A reset takes back
   a kill that hasn't ended a call. */
void ncs_kill(NcsBox *box);

/* Frees a box, and returns 1. The last one on its memory deletes the code that it has made. While a call of the box is under way it returns
   0, and does nothing. If there is no memory to delete code, it returns 0, and the box is dead. Null is allowed. */
int ncs_free(NcsBox *box);

/* ---- Signals */

/*
 * How a thread keeps the handlers of others away while it is inside. A frame of theirs would be written below the untrusted stack pointer.
 *
 *   NCS_SIGNALS_BLOCKED   The library blocks all signals but its own while the thread is inside. They come in when it is outside, and at
 *                         least every 10 ms of its processor time. Each thread begins so.
 *   NCS_SIGNALS_HELD      They stay blocked, in the host's own code and in call-backs too, until the thread makes another choice. Then its
 *                         earlier mask is on again. For runs of calls, and for threads that only call boxes. The thread keeps its alternate
 *                         stack meanwhile, and the library's signals unblocked. A thread that it starts has the same mask.
 *   NCS_SIGNALS_PROMISED  They aren't blocked. The host promises that each handler of the process has SA_ONSTACK at any time, whoever
 *                         installs it, and that the thread keeps its alternate stack, and the library's signals unblocked. A handler then
 *                         finds the untrusted code's registers in its context. It follows none of them, and makes no call. The frame of
 *                         one without SA_ONSTACK goes where the untrusted stack pointer leads. That ends the process or, as in a box at
 *                         base 0, is the box's memory, where untrusted code can change the host's registers in it.
 *
 * A thread whose alternate stack is gone isn't let in under NCS_SIGNALS_BLOCKED. Under the other two a call is refused within 10 ms of
 * processor time, and the process ends at once if a signal comes before that.
 */
enum { NCS_SIGNALS_BLOCKED, NCS_SIGNALS_HELD, NCS_SIGNALS_PROMISED };

/* Chooses for the calling thread, and returns 1. Returns 0 and changes nothing if it is refused, with NCS_BAD_HANDLER while a handler lacks
   SA_ONSTACK that is promised to have it. `why` gets the refusal, and may be null. */
int ncs_signals(uint32_t how, NcsRefusal *why);

/* ---- Calls */

/* How a call ended. Those marked with a star leave the box dead, and every call under way in it ends in the same way. */
enum {
    NCS_RETURNED,  /* the function returned: `result` */
    NCS_STOPPED,   /* * at a stop (hlt), which is also at each address without code */
    NCS_FAULTED,   /* * by a fault: `trap`, and `data` if that is 14 */
    NCS_LATE,      /* * its time is over. Some 30 ms more may pass, and still more if call-backs make many system calls */
    NCS_KILLED,    /* * by ncs_kill, of this box or of one from which it was called */
    NCS_EXITED,    /* * it called NCS_EXIT: `status` */
    NCS_BAD_ENTRY, /* the function isn't at a bundle start of the code, and nothing was entered; * so isn't an address to return to */
    NCS_BAD_CALL,  /* * a call of the host where there is none, or arguments or a frame that aren't in the box's memory */
    NCS_DENIED,    /* * by ncs_deny */
    NCS_TOO_DEEP,  /* the thread has too many calls under way, and nothing was entered */
    NCS_DEAD,      /* an earlier call has left the box dead, and nothing was entered */
    NCS_BUSY,      /* another thread is in a call of the box or resets it, or as many calls of its module as may be are under way; nothing
                      was entered */
    NCS_HOST       /* too many arguments, a thread that can't be prepared or has lost its alternate stack, a signal of the library with
                      another handler, or a box of before a fork; * one of these is found while the call is under way, or a call-back
                      didn't return */
};

typedef struct NcsEnd {
    uint32_t how;    /* one of these */
    uint32_t result; /* of NCS_RETURNED, EAX */
    uint32_t high;   /* of NCS_RETURNED, EDX: the upper half of a result of 64 bits, otherwise any number */
    uint32_t place;  /* where in the code it ended; for a call of the host, the trampoline's address or the one to return to; else 0 */
    uint32_t trap;   /* the interrupt of a stop or fault, as docs/EMBEDDING.md lists them; else 0 */
    uint32_t data;   /* of interrupt 14 (no page, below 00010000) the address of the data; else 0. The others tell none */
    uint32_t status; /* of NCS_EXITED */
} NcsEnd;

#define NCS_ARGS_MAX 16u
/* The last two arguments of ncs_call, as in ncs_call(box, function, NCS_ARGS(1, at.at)). */
/* clang-format off */
#define NCS_ARGS(...) (unsigned)(sizeof((uint32_t[]){__VA_ARGS__}) / sizeof(uint32_t)), (const uint32_t[]){__VA_ARGS__}
/* clang-format on */
#define NCS_NO_ARGS 0u, NULL

/* Returns an end in a word or two, such as "stopped". For another number it returns "?". */
const char *ncs_how(uint32_t how);

/* Calls a function of the box with 32-bit arguments, at most NCS_ARGS_MAX, as C for i386 does. A number of 64 bits is two, the lower half
   first. A call-back may call its own box or another one. In its own box the call's stack lies below the frame that the code has left. */
NcsEnd ncs_call(NcsBox *box, NcsAt function, unsigned count, const uint32_t *args);

/* A call-back gets a copy of its arguments. What it returns goes to EDX and EAX. */
typedef uint64_t (*NcsCallback)(NcsBox *box, void *user, const uint32_t *args);

#define NCS_CALLBACKS 64u
#define NCS_CALLBACK_ARGS 12u
#define NCS_EXIT 0x40u                       /* where the code ends its call, with a status: nc-cc -Wl,--defsym=ncs_exit=0x40 */
#define NCS_CALLBACK(k) (0x100u + 32u * (k)) /* where call-back k is, counted from 0 as the box gets them */

/* Gives the box a call-back with so many 32-bit arguments, at most NCS_CALLBACK_ARGS, and returns its address. The first one is at
   NCS_CALLBACK(0), and a box gets at most NCS_CALLBACKS of them. Returns 0 if it isn't given. The host makes this call only while no other
   thread is in a call of the box. */
NcsAt ncs_callback(NcsBox *box, NcsCallback function, void *user, unsigned args);

/*
 * Lets the code of a box change code of its module, by the box's next four call-backs, and returns the address of the first. They change
 * nothing outside of `area`, a part of the module's room. The host keeps areas of different boxes apart, and makes no chunk there itself.
 * Boxes on the same memory have the same area.
 *   hole(from, to)         finds the first hole of the area at or above `from`, and writes it to `to` as ncs_hole returns it
 *   create(at, from, len)  as ncs_create, from memory of the box
 *   patch(at, from, len)   as ncs_patch
 *   delete(at)             as ncs_delete
 * Each returns 0, or a negative number in EAX, and then changes nothing. That is -14 (EFAULT) for memory that isn't the box's, -22 (EINVAL)
 * for a place outside of the area, -12 (ENOMEM), or -(NCS_FAULT_CODE + fault) with the fault's address in EDX. The bytes are copied before
 * they are judged. A request takes as long as its bytes, and counts as time of the call.
 *
 * A reset and ncs_free delete each chunk of the area. Until then other boxes of the module can jump there, and read what its immediates
 * say. Where its boxes serve different tenants, each tenant has a module of his own: a box that stays inside holds the deleted code of all
 * boxes of the module back, and creations wait for each other.
 * An area without length, the only one in a module whose code never changes, has no room. So code finds out that it can't make any. Returns
 * 0 if the area isn't in the room or isn't bundles, if the box has another one, or if it has no four call-backs left.
 */
#define NCS_FAULT_CODE 256u
NcsAt ncs_code_calls(NcsBox *box, NcsSpan area);

/* Within a call-back of the box, ends the call that made it with NCS_DENIED, once the call-back has returned. Elsewhere it does nothing. */
void ncs_deny(NcsBox *box);

/* ---- Debugging */

#define NCS_TRACE_CALLS 16u

/* What the code of a box was doing, for whoever looks for a mistake in it. The code can forge all of this. */
typedef struct NcsTrace {
    uint32_t reg[8];              /* EAX, ECX, EDX, EBX, ESP, EBP, ESI and EDI */
    uint32_t is_full;             /* whether ESP has gone down beyond the memory: there was no room for what was to be put there */
    uint32_t count;               /* of the calls that follow */
    NcsAt calls[NCS_TRACE_CALLS]; /* the instructions by which the file's code came there, the innermost first: 00000000 beyond `count` */
} NcsTrace;

/* Writes what the box was doing when a call left it dead, and returns 1. Returns 0, and writes nothing, if the box isn't dead, or if the end
   has no place in the code. A call is found by its address to return to, on the stack, or within 4 MiB above its end. It is the one that a
   frame pointer leads to, else the nearest one that goes to the function at hand, else the nearest. So the list may have gaps, and calls
   that are over. It has no calls by code that a box has made. */
int ncs_trace(NcsBox *box, NcsTrace *to);

/* Where a box is in the process, for debuggers and profilers. Code in a box isn't to learn it. */
typedef struct NcsLinear {
    uint32_t code, data; /* the linear addresses of address 0 of its code and of its data */
    NcsSpan file;        /* the file's code, by its own addresses */
} NcsLinear;

NcsLinear ncs_linear(const NcsBox *box);

/* ---- Memory */

/* The calls judge each range. The box's bytes lie at or above 00010000 and below the limit `memory`. While another thread is in a call of
   the box, or of one beside it, its memory changes at any moment. */

/* Returns a pointer to `len` bytes of the box, valid until the box is freed. Returns null unless all of them are the box's. */
void *ncs_at(NcsBox *box, NcsAt at, uint32_t len);

/* Copy into the box, or out of it, and return 1. The other end may overlap it. Unless all of the range is the box's, they return 0 and copy
   nothing. */
int ncs_set(NcsBox *box, NcsAt at, const void *from, uint32_t len);
int ncs_get(NcsBox *box, void *to, NcsAt at, uint32_t len);

/* Copies a text out of the box up to its 0, and cuts it to `room` bytes with the 0. Returns its length as copied, without the 0. Returns -1
   if `room` is 0, or if one of the bytes to be copied isn't the box's. Then `to` has the bytes before it, with a 0, if there is room. */
long ncs_text(NcsBox *box, char *to, size_t room, NcsAt at);

/* Takes `len` bytes from the heap, and returns their address, a multiple of 16. The heap begins behind the data, and ends at the limit.
   Nothing is given back before the reset. A library with an allocator of its own gets a range to work in. Returns 0 if there is no room. */
NcsAt ncs_take(NcsBox *box, uint32_t len);

/* Takes room for these bytes as ncs_take does, copies them there, and returns their address. Returns 0 if there is no room. */
NcsAt ncs_put(NcsBox *box, const void *from, uint32_t len);

/* ---- A second wall */

/*
 * The system builds it around the whole process, for code that has come out of a box by a fault of this library. ncs_wall gives up for good
 * what a process doesn't need that only runs boxes:
 *   Code     No memory becomes executable. A call that would make a module ends the process, and so does a process's first ncs_signals
 *            that isn't for NCS_SIGNALS_BLOCKED. Boxes are made, called, reset and freed as before, and live code is changed.
 *   Files    None is opened, except below the folders that the host names. A file that is open stays open. With a folder, the process can
 *            still find out whether other files are there, and how long they are. A folder with a procfs in it gives root its own code
 *            to write.
 *   Calls    A system call that isn't needed ends the process by SIGSYS, and calls no handler. The process makes no socket and no other
 *            process, executes no program, and signals nobody else. What stays is read, write, lseek, fstat, close, memory, locks, clocks,
 *            timers and its own signals. ioctl fails with ENOTTY. newfstatat, by which a C library may do fstat, fails with ENOSYS.
 * This holds for all threads, but the rule for files only for the calling thread and those that it starts. So the host builds the wall
 * before it starts others. A forked child and an executed program are behind it too, if the host names the system calls that make them.
 */

/* A folder below which files may be opened. */
typedef struct NcsFolder {
    int file;     /* the folder, open in any way, also by O_PATH */
    int writable; /* whether regular files are written, made and cut there, besides being read, and times of open files set. By the system calls
                     that the host names, folders are made there too, and names changed and removed */
} NcsFolder;

#define NCS_WALL_CALLS 256u

/* What the host needs besides. */
typedef struct NcsWall {
    const NcsFolder *folders;
    unsigned folder_count;
    const int *calls;    /* further system calls, such as SYS_poll, which may have any arguments */
    unsigned call_count; /* at most NCS_WALL_CALLS */
    int threads;         /* whether threads may be started */
} NcsWall;

/* What stands. */
enum {
    NCS_NO_WALL,
    NCS_WALL_FILTER, /* all but the rule for files, with a system that has no Landlock. Any file is opened then, if there is a folder */
    NCS_WALL_WHOLE
};

/* Builds the wall, and returns what stands. It is refused with NCS_BAD_LIMITS for a number that is no system call's, or for too many of
   them. It is refused with NCS_BAD_SYSTEM if it stands already, if a folder isn't one, or if the system can't build it, as before Linux
   4.14. Such a refusal may leave the rule for files. */
int ncs_wall(const NcsWall *wall, NcsRefusal *why);

#ifdef __cplusplus
}
#endif

#endif
