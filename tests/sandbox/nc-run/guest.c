/* A program for nc-run, without a C library: its first word says what it does. */
#include "guest.h"

extern char _end[];
static char bytes[1 << 16];
static char many[1 << 20]; /* more than a pipe holds */

static int words(int argc, char **argv) {
    line(1, "words", argc);
    for (; *argv != 0; argv++) put(1, "["), put(1, *argv), put(1, "]\n");
    return 0;
}

/* Copies its input to its output, however few bytes a call takes. */
static int cat(int from) {
    int got, put = 1;
    while ((got = nc_read(from, bytes, sizeof bytes)) > 0) {
        for (int at = 0; at < got; at += put)
            if ((put = nc_write(1, bytes + at, (u32)(got - at))) <= 0) return line(2, "write", put), 3;
    }
    return got < 0 ? (line(2, "read", got), 2) : 0;
}
static int reads(void) {
    int got;
    do line(1, "read", got = nc_read(0, bytes, sizeof bytes));
    while (got > 0);
    return 0;
}
/* Writes until a write fails. */
static int flood(void) {
    int put;
    while ((put = nc_write(1, many, sizeof many)) > 0) {}
    line(2, "write", put);
    return 0;
}

/* Arguments that no good program gives. */
static int hostile(void) {
    u32 end = nc_memory() + 4096 & ~4095u; /* of the memory */
    line(1, "write from 0", nc_write(1, (void *)0, 1));
    line(1, "write from below the memory", nc_write(1, (void *)0xFFFF, 2));
    line(1, "write across the end", nc_write(1, (void *)(end - 1), 2));
    line(1, "write behind the end", nc_write(1, (void *)end, 1));
    line(1, "write of 2^32 - 1 bytes", nc_write(1, bytes, 0xFFFFFFFF));
    line(1, "write around the end of all addresses", nc_write(1, (void *)0xFFFFFFFF, 2));
    line(1, "write of nothing from nowhere", nc_write(1, (void *)0, 0));
    line(1, "read to 0", nc_read(0, (void *)0, 1));
    line(1, "read to the code", nc_read(0, (void *)0x8000, 1));
    line(1, "read across the end", nc_read(0, (void *)(end - 1), 2));
    line(1, "read of 2^31 bytes", nc_read(0, bytes, 0x80000000));
    line(1, "read of file -1", nc_read(-1, bytes, 1));
    line(1, "read of file -2^31", nc_read(-2147483647 - 1, bytes, 1));
    line(1, "read of file 63", nc_read(63, bytes, 1));
    line(1, "read of file 64", nc_read(64, bytes, 1));
    line(1, "write of file 3", nc_write(3, bytes, 1));
    line(1, "write of file 2^31 - 1", nc_write(2147483647, bytes, 1));
    line(1, "pipe to 0", nc_pipe((int *)0));
    line(1, "pipe across the end", nc_pipe((int *)(end - 7)));
    line(1, "poll to 0", nc_poll((struct nc_ready *)0, 1, 0));
    line(1, "poll across the end", nc_poll((struct nc_ready *)(end - 7), 1, 0));
    line(1, "poll of 65 files", nc_poll((struct nc_ready *)bytes, 65, 0));
    line(1, "poll of 2^29 + 1 files", nc_poll((struct nc_ready *)bytes, 0x20000001, 0));
    line(1, "poll of nothing", nc_poll((struct nc_ready *)0, 0, 0));
    line(1, "close of file 3", nc_close(3));
    line(1, "close of file -1", nc_close(-1));
    line(1, "lseek of file -1", nc_lseek(-1, 0, 0));
    line(1, "lseek from 3", nc_lseek(0, 0, 3));
    line(1, "lseek from -1", nc_lseek(0, 0, -1));
    line(1, "size of file 9", nc_size(9));
    line(1, "clock 3", nc_clock(3));
    line(1, "clock -1", nc_clock(-1));
    line(1, "open of 0", nc_open((const char *)0, 0, 0));
    *(char *)(end - 1) = 'a';
    line(1, "open across the end", nc_open((const char *)(end - 1), 0, 0));
    for (u32 k = 0; k < 5000; k++) bytes[k] = "/."[k % 2];
    line(1, "open of a long path", nc_open(bytes, 0, 0));
    return 0;
}
/* The same for the calls with paths, and those that fill memory. */
static int hostile_names(void) {
    u32 end = nc_memory() + 4096 & ~4095u;
    char *last = (char *)(end - 1), *below = (char *)0x8000;
    struct nc_status about;
    *last = 'a';
    line(1, "status across the end", nc_status(last, 0, 0, &about));
    line(1, "status to the end", nc_status(".", 0, 0, (struct nc_status *)(end - sizeof about + 1)));
    line(1, "status to the code", nc_status(0, 0, 0, (struct nc_status *)below));
    line(1, "status of file 64", nc_status(0, 64, 0, &about));
    line(1, "status in another way", nc_status(".", 0, 1, &about));
    line(1, "names across the end", nc_list(nc_open(".", 0, 0), last, 2));
    line(1, "names to no room", nc_list(3, bytes, 1));
    line(1, "names of a file that isn't open", nc_list(-1, bytes, 99));
    line(1, "names of a pipe or a device", nc_list(0, bytes, 99));
    line(1, "link across the end", nc_link("sub/up", last, 2));
    line(1, "link to nothing", nc_link("sub/up", 0, 0));
    line(1, "enter across the end", nc_enter(last));
    line(1, "where to no room", nc_where(NC_WHERE, bytes, 1));
    line(1, "where across the end", nc_where(NC_WHERE, last, 2));
    line(1, "where of a pipe or a device", nc_where(0, bytes, 99));
    line(1, "where of file 64", nc_where(64, bytes, 99));
    line(1, "make across the end", nc_make(last, 0777));
    line(1, "remove across the end", nc_remove(last, 0));
    line(1, "remove in another way", nc_remove("nothing", 2));
    line(1, "rename across the end", nc_rename("file", last));
    line(1, "rename of it", nc_rename(last, "file"));
    line(1, "cut of file 64", nc_cut(64, 0));
    line(1, "cut of a standard file", nc_cut(1, 0));
    line(1, "cut to -1", nc_cut(3, -1));
    line(1, "times across the end", nc_change("file", 0, NC_MODE_KEEP, (const long long *)(end - 15)));
    line(1, "change of file 64", nc_change(0, 64, 0, 0));
    line(1, "change of a standard file", nc_change(0, 0, 0, 0));
    line(1, "copy of file 64", nc_copy(64, 0, 0));
    line(1, "copy to 64", nc_copy(0, 64, 0));
    line(1, "copy to just 64", nc_copy(0, 64, 1));
    line(1, "copy to just -1", nc_copy(0, -1, 1));
    line(1, "terminal of file -1", nc_terminal(-1));
    line(1, "sleep of -1", nc_sleep(-1));
    line(1, "random across the end", nc_random(last, 2));
    line(1, "random of nothing", nc_random(0, 0));
    return 0;
}

/* Opens a file, shows it, and closes it. */
static int show(const char *path, int how) {
    int file = nc_open(path, how, 0644);
    if (file < 0) return line(1, "open", file), 0;
    line(1, "file", file);
    line(1, "size", nc_size(file));
    cat(file);
    line(1, "close", nc_close(file));
    line(1, "read", nc_read(file, bytes, 1));
    return 0;
}
/* Writes a text to a file. */
static int set(const char *path, int how, const char *text) {
    int file = nc_open(path, how, 0640);
    line(1, file < 0 ? "open" : "write", file < 0 ? file : nc_write(file, text, length(text)));
    return 0;
}
static int seek(const char *path) {
    int file = nc_open(path, NC_OPEN_READ, 0);
    line(1, "to 2", nc_lseek(file, 2, 0));
    line(1, "read", nc_read(file, bytes, 1));
    line(1, "at", nc_lseek(file, 0, 1));
    line(1, "end", nc_lseek(file, 0, 2));
    line(1, "before the beginning", nc_lseek(file, -1, 0));
    line(1, "far", nc_lseek(file, 1ll << 40, 0) == 1ll << 40);
    line(1, "read", nc_read(file, bytes, 1));
    line(1, "write", nc_write(file, bytes, 1));
    return 0;
}
/* The places of the standard files, and of a file that has the number of one. */
static int places(const char *path) {
    line(1, "of 0", nc_lseek(0, 0, 1));
    line(1, "of 1", nc_lseek(1, 0, 1));
    line(1, "of 2", nc_lseek(2, 0, 0));
    line(1, "from 3", nc_lseek(0, 0, 3));
    line(1, "close", nc_close(0));
    line(1, "file", nc_open(path, NC_OPEN_READ, 0));
    line(1, "to 2", nc_lseek(0, 2, 0));
    return 0;
}
/* Moves as many bytes at once as it can, which are more than 900 MiB. */
static int most(const char *path, int how) {
    u32 len = nc_memory() - (u32)_end;
    int file = nc_open(path, how, 0);
    line(1, "asked for enough", len > 900u << 20);
    line(1, "read", nc_read(file, _end, len));
    line(1, "write", nc_write(file, _end, len));
    return 0;
}

/* Makes a file, and writes to it until a write fails. */
static int fill(const char *path) {
    int file = nc_open(path, NC_OPEN_WRITE | NC_OPEN_CREATE, 0644), put;
    u32 all = 0;
    while ((put = nc_write(file, many, 5000)) > 0) all += (u32)put;
    line(1, "bytes", all);
    line(1, "write", put);
    return 0;
}
/* Writes single bytes, each a page behind the one before, to which it seeks or reads, until one fails. */
static int comb(const char *path, int reads) {
    int file = nc_open(path, NC_OPEN_BOTH, 0), put, bytes_put = 0;
    do {
        if (reads) nc_read(file, bytes, 4095);
        else nc_lseek(file, 4096ll * bytes_put + 4095, 0);
    } while ((put = nc_write(file, bytes, 1)) > 0 && ++bytes_put < 1000);
    line(1, "bytes", bytes_put);
    line(1, "write", put);
    return 0;
}
/* Opens as many files as it can; one number is given anew. */
static int all(const char *path) {
    int file, last = 0;
    while ((file = nc_open(path, NC_OPEN_READ, 0)) >= 0) last = file;
    line(1, "last", last);
    line(1, "open", file);
    line(1, "close", nc_close(7));
    line(1, "again", nc_open(path, NC_OPEN_READ, 0));
    line(1, "close", nc_close(0));
    line(1, "again", nc_open(path, NC_OPEN_READ, 0));
    return 0;
}

/* Makes as many pipes as it can, with bytes in each, and gives the number that is left. */
static int all_pipes(void) {
    int ends[2], pipes = 0, put = 0, error;
    for (; (error = nc_pipe(ends)) == 0; pipes++)
        while ((put = nc_write(ends[1], many, sizeof many)) > 0) {}
    line(1, "pipes", pipes);
    line(1, "pipe", error);
    line(1, "write", put);
    line(1, "last", ends[1]);
    line(1, "left", nc_copy(0, 3, 0));
    line(1, "more than a page", nc_read(ends[0], many, sizeof many) >= 4096);
    return 0;
}

/* The words of the environment, which lie behind those of the command line. */
static int environment(char **words) {
    for (; *words != 0; words++) put(1, *words), put(1, "\n");
    return 0;
}
/* Whether a wait lasts as long as it has to and takes no time of the processor. */
static int waits(void) {
    long long steady = nc_clock(NC_CLOCK_STEADY), used = nc_clock(NC_CLOCK_PROCESSOR);
    line(1, "sleep", nc_sleep(50000000));
    line(1, "poll", nc_poll(0, 0, 50000000));
    line(1, "waited", nc_clock(NC_CLOCK_STEADY) - steady >= 100000000);
    line(1, "used little", nc_clock(NC_CLOCK_PROCESSOR) - used < 25000000);
    return 0;
}
/* Whether bytes differ from zeros, from those of the next call, and in all of their bits. */
static int chances(void) {
    unsigned char *one = (unsigned char *)many, *other = one + 4096, ones = 0, zeros = 255;
    u32 same_bytes = 0;
    line(1, "random", nc_random(one, 4096));
    line(1, "random", nc_random(other, 4096));
    for (u32 k = 0; k < 4096; k++) ones |= one[k], zeros &= one[k], same_bytes += one[k] == other[k];
    line(1, "all bits", ones == 255 && zeros == 0);
    line(1, "other bytes", same_bytes < 100);
    line(1, "many", nc_random(_end, nc_memory() - (u32)_end));
    return 0;
}

static u32 next_random(u32 *state) {
    *state ^= *state << 13;
    *state ^= *state >> 17;
    return *state ^= *state << 5;
}
/* A number that a call may take amiss, a path, a range of memory, or any number. */
static u32 any(u32 *state) {
    static const char *const paths[] = {"file", "sub/inner", "made", "sub/more", "out",    "../secret", "../made", "/made", "beyond",
                                        "pipe", ".",         "sub",  "..",       "sub/up", "/",         "loop",    "other"};
    const u32 edges[] = {0, 1, 2, 3, 4, 63, 64, 0x41, 0x242, 0x7FFFFFFF, 0x80000000, 0xFFFFFFFF, 0xFFFF, 0x10000, nc_memory(), 4096};
    u32 k = next_random(state), way = next_random(state) % 8;
    if (way < 4) return edges[k % (sizeof edges / sizeof *edges)];
    if (way == 4) return (u32)paths[k % (sizeof paths / sizeof *paths)];
    return way == 5 ? (u32)bytes + k % sizeof bytes : way == 6 ? k % 70 : k;
}
/* Any calls with any arguments, but for two that would wait, and one only for some time. */
static int random_calls(u32 state) {
    for (u32 k = 0; k < 200000; k++) {
        u32 call = next_random(&state) % NC_RUN_END, a = any(&state), b = any(&state), c = any(&state), d = any(&state);
        if (call == 24 || call == 27) continue;
        if (call == 28) c &= 0xFFFF, d = 0;
        ((u32(*)(u32, u32, u32, u32))(0x100 + 32 * call))(a, b, c, d);
    }
    return 9;
}

/* Whether the memory is there up to its end, behind the data, and the words lie above. */
static int memory(char **argv) {
    char *end = (char *)nc_memory();
    for (char *at = _end; at < end; at++)
        if (*at != 0) return 1;
    for (char *at = _end; at < end; at += 4096) *at = 1;
    end[-1] = 1;
    line(1, "of argv", (char *)argv - end);
    line(1, "above", argv[0] > end && argv[1] > argv[0]);
    line(1, "MiB", ((u32)end + 4096) >> 20);
    return 0;
}
static int clocks(void) {
    long long steady = nc_clock(NC_CLOCK_STEADY), used = nc_clock(NC_CLOCK_PROCESSOR);
    while (nc_clock(NC_CLOCK_PROCESSOR) - used < 20000000) {} /* 20 ms */
    line(1, "steady", nc_clock(NC_CLOCK_STEADY) - steady >= 20000000);
    line(1, "since 2020", nc_clock(NC_CLOCK_REAL) > 1577836800ll * 1000000000);
    return 0;
}

/* Makes code, runs it, patches and deletes it; and what that says without live code. */
static int makes(void) {
    /* mov eax, 42; pop ecx; and ecx, -32; jmp ecx */
    static unsigned char code[32] = {0xB8, 42, 0, 0, 0, 0x59, 0x83, 0xE1, 0xE0, 0xFF, 0xE1}, wrong[32] = {0x90, 0xC3};
    struct nc_hole hole;
    for (u32 k = 11; k < sizeof code; k++) code[k] = 0x90;
    line(1, "hole", nc_hole(0, &hole));
    line(1, "K", hole.len >> 10);
    line(1, "create", (int)nc_create(hole.at, code, sizeof code));
    if (hole.len != 0) line(1, "result", ((int (*)(void))hole.at)());
    code[1] = 43;
    line(1, "patch", (int)nc_patch(hole.at, code, 5));
    if (hole.len != 0) line(1, "result", ((int (*)(void))hole.at)());
    line(1, "refused", (int)nc_create(hole.at + 32, wrong, sizeof wrong));
    line(1, "at", (int)(nc_create(hole.at + 32, wrong, sizeof wrong) >> 32) - (int)hole.at);
    line(1, "delete", (int)nc_delete(hole.at));
    line(1, "start", (int)nc_delete(0x10000));
    return 0;
}
/* Goes to a place of live code where there is none. */
static int strays(int from) {
    struct nc_hole hole;
    nc_hole(0, &hole);
    return ((int (*)(void))(hole.at + (u32)from))();
}

int start(int argc, char **argv) {
    const char *what = argc > 1 ? argv[1] : "";
    const char *path = argc > 2 ? argv[2] : "";
    int how = argc > 3 ? number_of(argv[3]) : 0;
    if (same(what, "words")) return words(argc, argv);
    if (same(what, "exit")) nc_exit(number_of(path));
    if (same(what, "return")) return number_of(path);
    if (same(what, "cat")) return cat(0);
    if (same(what, "reads")) return reads();
    if (same(what, "flood")) return flood();
    if (same(what, "hostile")) return hostile();
    if (same(what, "hostile-names")) return hostile_names();
    if (same(what, "do")) return do_calls(argv + 2);
    if (same(what, "environment")) return environment(argv + argc + 1);
    if (same(what, "waits")) return waits();
    if (same(what, "chances")) return chances();
    if (same(what, "show")) return show(path, how);
    if (same(what, "set")) return set(path, how, argc > 4 ? argv[4] : "");
    if (same(what, "spill") && nc_open(path, NC_OPEN_WRITE, 0) >= 0) __asm__ volatile("hlt");
    if (same(what, "seek")) return seek(path);
    if (same(what, "places")) return places(path);
    if (same(what, "most")) return most(path, how);
    if (same(what, "fill")) return fill(path);
    if (same(what, "comb")) return comb(path, how);
    if (same(what, "all")) return all(path);
    if (same(what, "pipes")) return all_pipes();
    if (same(what, "clock")) return line(1, "clock", nc_clock(NC_CLOCK_REAL)), 0;
    if (same(what, "size")) return line(1, "size", nc_size(number_of(path))), 0;
    if (same(what, "put")) return line(2, "write", nc_write(number_of(path), "x", 1)), 0;
    if (same(what, "get")) return line(2, "read", nc_read(number_of(path), bytes, 1)), 0;
    if (same(what, "random")) return random_calls((u32)number_of(path));
    if (same(what, "memory")) return memory(argv);
    if (same(what, "clocks")) return clocks();
    if (same(what, "makes")) return makes();
    if (same(what, "strays")) return strays(how);
    return 99;
}

/* For --call */
unsigned add(unsigned a, unsigned b) {
    return a + b;
}
unsigned sum(unsigned a, unsigned b, unsigned c, unsigned d, unsigned e, unsigned f, unsigned g, unsigned h, unsigned i, unsigned j,
             unsigned k, unsigned l, unsigned m, unsigned n, unsigned o, unsigned p) {
    return a + b + c + d + e + f + g + h + i + j + k + l + m + n + o + p;
}
void leave(int status) {
    nc_exit(status);
}
unsigned table[4] = {1, 2, 3, 4};
