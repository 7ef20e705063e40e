/*
 * nc_run.h: the calls of a program that nc-run runs. It is for code that nc-cc compiles, which finds this header and links the calls.
 *
 *     #include <nc_run.h>
 *     int start(int argc, char **argv) { return nc_write(1, "hello\n", 6) != 6; }
 *
 * Start      nc-run calls the entry, `start`, as C for i386 does. argv[0] is the file as the command line names it, the other words follow,
 *            and argv[argc] is null. Behind it are the words of nc-run --env, and another null. The low 8 bits of the number that `start`
 *            returns are the program's status.
 * Memory     From the end of the data, `_end`, to nc_memory() the memory is free for the program to use. The words of argv lie above. The
 *            stack grows down from the data to 00010000. It has 64 MiB, or as much as nc-cc --data leaves.
 * Errors     A call that fails returns a negative number, such as -9 for EBADF. Errors have the numbers of Linux. A pointer outside the
 *            memory is EFAULT, unless it is to 0 bytes. A call with EFAULT does nothing.
 * Files      0, 1 and 2 are nc-run's own. 0 is only read, and 1 and 2 are only written; anything else is EBADF. They have no place. A
 *            program gets other files by nc_open and nc_pipe, and has at most 64 numbers in all. A call on one that isn't open is EBADF.
 * Paths      The folders of nc-run --dir and --dir-rw have the names that it says, by default `/`. A path that doesn't begin with a slash
 *            begins where nc_enter has gone. At first that is nc-run's own folder, if the program has it, and otherwise `/`. `..` takes away the name before it, whatever that is, and at `/` nothing. A
 *            link that is absolute, or that leads out of its folder, is EACCES, and so are all files of the kernel's own, as in /proc. So
 *            is each path if there is no folder. A path of 4095 bytes or more is ENAMETOOLONG. A change below a folder of --dir is EROFS.
 * Limit      nc-run --write says how many bytes the program may write to files of the folders. Each file or folder that is made counts
 *            4096 more, and so does the first write after nc_lseek, nc_read or nc_cut. So do the bytes by which nc_cut makes a file longer.
 *            A write gets what is left. If nothing is left, that is ENOSPC.
 * Addresses  Call k is at 00000100 + 32 k, and nc_exit at 00000040. The arguments lie on the stack above the address to return to. One of
 *            64 bits is two words. The result is in EAX, or in EDX and EAX. A call overwrites these two and ECX, and no other register.
 *
 *     k  address   call                    result                   errors, besides those of the file system, such as EIO
 *     -  00000040  exit(status)            none
 *     0  00000100  read(file, to, len)     bytes; 0 at the end      EBADF, EFAULT, EDEADLK, EAGAIN if the file doesn't wait
 *     1  00000120  write(file, from, len)  bytes                    EBADF, EFAULT, EDEADLK, EAGAIN, EPIPE, ENOSPC, EFBIG
 *     2  00000140  clock(clock)            nanoseconds, 64 bits     EINVAL
 *     3  00000160  memory()                address
 *     4  00000180  open(path, how, mode)   file                     EFAULT, ENAMETOOLONG, EINVAL, EACCES, EROFS, EMFILE, EISDIR, ENOENT,
 *                                                                   EEXIST, ENOTDIR, ELOOP, ENOSPC
 *     5  000001a0  close(file)             0                        EBADF
 *     6  000001c0  lseek(file, low, high,  place, 64 bits           EBADF, EINVAL, ESPIPE
 *                  from)
 *     7  000001e0  size(file)              bytes, 64 bits           EBADF, ESPIPE
 *     8  00000200  hole(from, to)          0                        EFAULT
 *     9  00000220  create(at, from, len)   0                        EFAULT, EINVAL, ENOMEM, 256 and more: see nc_create
 *    10  00000240  patch(at, from, len)    0                        the same
 *    11  00000260  delete(at)              0                        EINVAL, ENOMEM, 256 and more
 *    12  00000280  status(path, file, how, 0                        EFAULT, EINVAL, EBADF, those of paths
 *                  to)
 *    13  000002a0  list(file, to, len)     bytes; 0 at the end      EBADF, EFAULT, ENOTDIR, EINVAL
 *    14  000002c0  link(path, to, len)     bytes                    EFAULT, EINVAL, those of paths
 *    15  000002e0  enter(path)             0                        EFAULT, ENOTDIR, those of paths
 *    16  00000300  where(file, to, len)    bytes, with the 0        EBADF, EFAULT, ENOTDIR, ERANGE
 *    17  00000320  make(path, mode)        0                        EFAULT, EEXIST, ENOSPC, those of paths
 *    18  00000340  remove(path, how)       0                        EFAULT, EINVAL, EBUSY, EISDIR, ENOTDIR, ENOTEMPTY, those of paths
 *    19  00000360  rename(path, to)        0                        EFAULT, EINVAL, EBUSY, EXDEV, those of paths
 *    20  00000380  cut(file, low, high)    0                        EBADF, EINVAL, ENOSPC
 *    21  000003a0  change(path, file,      0                        EFAULT, EBADF, EPERM, those of paths
 *                  mode, times)
 *    22  000003c0  copy(file, number,      number                   EBADF, EINVAL, EMFILE
 *                  exactly)
 *    23  000003e0  terminal(file)          rows and columns, 64     EBADF, ENOTTY
 *                                          bits
 *    24  00000400  sleep(low, high)        0                        EINVAL
 *    25  00000420  random(to, len)         bytes                    EFAULT
 *    26  00000440  pipe(to)                0                        EFAULT, EMFILE
 *    27  00000460  flush(file)             0                        EBADF, EINVAL
 *    28  00000480  poll(files, count, low, number                   EFAULT, EINVAL, EDEADLK
 *                  high)
 *
 * Those of paths are EACCES, ENOENT, ENOTDIR, ELOOP, ENAMETOOLONG and EROFS.
 */
#ifndef NC_RUN_H
#define NC_RUN_H

/* The calls by their numbers, each with the words of its arguments, but for those for code. */
#define NC_RUN_CALLS(CALL) \
    CALL(0, read, 3) \
    CALL(1, write, 3) \
    CALL(2, clock, 1) \
    CALL(3, memory, 0) \
    CALL(4, open, 3) \
    CALL(5, close, 1) \
    CALL(6, lseek, 4) \
    CALL(7, size, 1) \
    CALL(12, status, 4) \
    CALL(13, list, 3) \
    CALL(14, link, 3) \
    CALL(15, enter, 1) \
    CALL(16, where, 3) \
    CALL(17, make, 2) \
    CALL(18, remove, 2) \
    CALL(19, rename, 2) \
    CALL(20, cut, 3) \
    CALL(21, change, 4) \
    CALL(22, copy, 3) \
    CALL(23, terminal, 1) \
    CALL(24, sleep, 2) \
    CALL(25, random, 2) \
    CALL(26, pipe, 1) \
    CALL(27, flush, 1) \
    CALL(28, poll, 4)

/* The numbers of the first of the four calls for code, which any host can give to a box (ncs_code_calls), of the one behind them, and of the
   one behind all calls. */
#define NC_RUN_CODE 8
#define NC_RUN_CODE_END 12
#define NC_RUN_END 29

/* The clocks of nc_clock, which counts nanoseconds. */
#define NC_CLOCK_REAL 0      /* since 1970 */
#define NC_CLOCK_STEADY 1    /* since some moment, without steps */
#define NC_CLOCK_PROCESSOR 2 /* of processor time that nc-run has used */

/* How nc_open opens a file. `how` is one of the first three numbers, with any of the others. They are those of Linux for i386. A folder is
   only read, with NC_OPEN_READ. */
#define NC_OPEN_READ 0
#define NC_OPEN_WRITE 1
#define NC_OPEN_BOTH 2
#define NC_OPEN_CREATE 0x40
#define NC_OPEN_NEW 0x80 /* with NC_OPEN_CREATE: EEXIST if the file is there */
#define NC_OPEN_EMPTY 0x200
#define NC_OPEN_APPEND 0x400
#define NC_OPEN_NO_WAIT 0x800   /* only an end of a pipe is so, as nc_status says */
#define NC_OPEN_FOLDER 0x10000  /* ENOTDIR if it isn't a folder */
#define NC_OPEN_NO_LINK 0x20000 /* ELOOP if it is a link */

#ifdef __cplusplus
extern "C" {
#endif

/* Ends the program, with the low 8 bits of the status. */
__attribute__((noreturn)) void nc_exit(int status);

/* Read or write at most `len` bytes, and return their number, which is 0 at the end of a file. Fewer than `len` are no error, and no call
   moves more than 1048576. A read waits until there are some, unless the file doesn't wait, which is EAGAIN. A write that nobody reads any
   more is EPIPE. A wait that only the program itself could end is EDEADLK: it reads an empty pipe of nc_pipe that it may still write, or
   writes to a full one. */
int nc_read(int file, void *to, unsigned len);
int nc_write(int file, const void *from, unsigned len);

/* Returns the time of a clock, in nanoseconds. EINVAL for a number that is no clock. */
long long nc_clock(int clock);

/* Returns the address at which the memory ends that the program may use. */
unsigned nc_memory(void);

/* Opens a regular file or a folder, and returns its number, the least that is free. The low 9 bits of `mode` count if a file is created.
   EACCES for devices and pipes. EISDIR for more than reading of a folder. EMFILE if the program has 64 files. EINVAL for another way to
   open. ENOENT for a link that leads to nothing, also if a file is to be created. */
int nc_open(const char *path, int how, unsigned mode);

/* Closes a file, which may be 0, 1 or 2. nc_open may then give its number again. */
int nc_close(int file);

/* Sets the place at which the next read or write begins, and returns it, in bytes from the file's beginning. `offset` counts from the
   beginning if `from` is 0, from the present place if it is 1, and from the file's end if it is 2. ESPIPE for a standard file. */
long long nc_lseek(int file, long long offset, int from);

/* Returns a regular file's length in bytes. ESPIPE for anything else. */
long long nc_size(int file);

/* What there is to know of a file. The numbers are those of Linux, and times are in nanoseconds since 1970. The write rights of `mode` are
   missing where the program can't change the file. */
struct nc_status {
    unsigned long long device, inode; /* which no other file of the system has both */
    unsigned long long size, blocks;  /* in bytes, and in units of 512 bytes */
    long long accessed, modified, changed;
    unsigned mode; /* kind and rights */
    unsigned links;
    unsigned how; /* it was opened, where it is an open file below a folder or an end of a pipe */
    unsigned none;
};

/* Tells what is at a path or, if that is null, of an open file. `how` is 0, or NC_OPEN_NO_LINK for a link itself. */
int nc_status(const char *path, int file, int how, struct nc_status *to);

/* Reads the next names in a folder, in the form of Linux's getdents64, and returns the number of bytes. nc_lseek can go back to 0, and to
   where an entry says. EINVAL if there isn't enough room for one. */
int nc_list(int file, void *to, unsigned len);

/* Tells where a link leads, in at most `len` bytes without a 0, and returns their number. EINVAL for anything else. */
int nc_link(const char *path, char *to, unsigned len);

/* Goes to a folder, where paths then begin. */
int nc_enter(const char *path);

/* Tells the path of an open folder, or of that where paths begin, with a 0 at its end. ERANGE if that is more than `len` bytes. */
#define NC_WHERE (-1)
int nc_where(int file, char *to, unsigned len);

/* Makes a folder. The low 9 bits of `mode` count. */
int nc_make(const char *path, unsigned mode);

/* Removes a name or, if `how` is 1, an empty folder. EBUSY for a folder of nc-run's command line. */
int nc_remove(const char *path, int how);

/* Gives a file or a folder another name, in place of what has that. EXDEV for two folders of nc-run's command line. */
int nc_rename(const char *path, const char *to);

/* Makes a file so many bytes long. EINVAL if it isn't open to be written. */
int nc_cut(int file, long long len);

/* Changes what is at a path or, if that is null, an open file. `mode` is the 9 bits of its rights, or NC_MODE_KEEP. `times` has the times at
   which it was accessed and modified, or is null. What the program can't open to be read it can't change by its path. */
#define NC_MODE_KEEP 0xFFFFFFFFu
#define NC_TIME_NOW (-0x7FFFFFFFFFFFFFFFll - 1)
#define NC_TIME_KEEP (-0x7FFFFFFFFFFFFFFFll)
int nc_change(const char *path, int file, unsigned mode, const long long *times);

/* Gives an open file another number, and returns it: `number`, whose own file is closed, if `exactly` isn't 0, and else the least that is
   free from there on. Both numbers have one place. */
int nc_copy(int file, int number, int exactly);

/* Returns the rows of a terminal, as they were when the program began, in the upper half of the result, and the columns in the lower. */
long long nc_terminal(int file);

/* Waits for so many nanoseconds. */
int nc_sleep(long long nanoseconds);

/* Fills at most `len` bytes with random ones, by the system's generator for keys, and returns their number, at most 1048576. */
int nc_random(void *to, unsigned len);

/* Makes a pipe within the program, of at least 4096 bytes, and sets `to` to the numbers of its ends, which are the least that are free. The
   first is only read, the second only written. They have no place. What is written to a pipe doesn't count for nc-run --write. */
int nc_pipe(int to[2]);

/* Waits until what was written to a file or a folder is stored, as far as the system knows. EINVAL for a standard file or a pipe. Where the
   program only reads, there is nothing of its own to store. */
int nc_flush(int file);

/* A file that is waited for. Negative numbers stand for none. */
struct nc_ready {
    int file;
    short wanted, ready; /* any of the numbers below, which are those of Linux's poll, or others of these */
};
#define NC_READY_READ 1
#define NC_READY_WRITE 4
#define NC_READY_ERROR 8   /* also if it isn't wanted, as the next two: nobody reads what is written, or something else is wrong */
#define NC_READY_ENDED 16  /* nobody writes any more */
#define NC_READY_CLOSED 32 /* the program has no such file */

/* Waits until one of at most 64 files is ready, but no longer than so many nanoseconds, or without end if that is negative. Sets `ready` of
   each, and returns how many are ready in some way. What lies below a folder always is. EINVAL for more files. EDEADLK for a wait without
   end that only the program itself could end, since it is for no standard file. */
int nc_poll(struct nc_ready *files, unsigned count, long long nanoseconds);

/* A part of the area in which the program may make code. */
struct nc_hole {
    unsigned at;   /* where it begins; if `len` is 0, where to ask on, or else the area's end */
    unsigned len;  /* bytes in which no chunk is, a multiple of 32; 0 if the call has found none */
    unsigned held; /* bytes of deleted chunks below it, from the address that was asked for, which can't be used yet */
};

/* Finds the first hole of the area at or above `from`, looking at 256 chunks at most. Without nc-run --live-code there is none, and `at` is
   0. A hole is a hint. */
int nc_hole(unsigned from, struct nc_hole *to);

/* Makes a chunk of whole bundles at `at`, from `len` bytes that are copied first. The low half of the result is 0 or a negative number.
   That is -14 (EFAULT) for bytes that aren't in the memory, -22 (EINVAL) for a place that isn't in the area, -12 (ENOMEM), or
   -(256 + fault) with a fault of nc_host.h, such as NC_OCCUPIED. The upper half is the address of a fault in the code, else 0. A refusal
   changes nothing. */
long long nc_create(unsigned at, const void *from, unsigned len);

/* Replaces whole instructions of a chunk, within a bundle, with others of the same lengths. The result is as that of nc_create. */
long long nc_patch(unsigned at, const void *from, unsigned len);

/* Deletes the chunk that begins at `at`. Its span is a hole again once each thread that was inside has come out. */
long long nc_delete(unsigned at);

#ifdef __cplusplus
}
#endif

#endif
