/* Calls that the command line lists. */
#include "guest.h"

static char bytes[100];

static u32 octal_of(const char *text) {
    u32 number = 0;
    for (; *text != 0; text++) number = 8 * number + (u32)(*text - '0');
    return number;
}
static void put_octal(u32 number) {
    char digits[12], *at = digits + sizeof digits;
    *--at = 0;
    do *--at = (char)('0' + number % 8);
    while ((number /= 8) != 0);
    put(1, at);
}
static int do_status(const char *path, int how) {
    struct nc_status about;
    int error = nc_status(path, 0, how, &about);
    if (error != 0) return error;
    put(1, "mode: ");
    put_octal(about.mode);
    put(1, "\n");
    if ((about.mode & 0170000) == 0100000) line(1, "size", (long long)about.size);
    return 0;
}
static int do_status_open(int file) {
    struct nc_status about;
    int error = nc_status(0, file, 0, &about);
    if (error == 0) put_octal(about.mode), line(1, ", how", about.how);
    if (error == 0 && about.device == 0) line(1, "number", (long long)about.inode);
    return error;
}
static int do_pipe(void) {
    int ends[2], error = nc_pipe(ends);
    if (error == 0) line(1, "to read", ends[0]), line(1, "to write", ends[1]);
    return error;
}
/* Waits for files, each told as a number and a letter, and prints how each is ready. */
static int do_poll(const char *text, int milliseconds) {
    static const struct {
        char letter;
        short wanted;
    } kinds[] = {{'r', NC_READY_READ}, {'w', NC_READY_WRITE}, {'a', -1}, {'n', 0}};
    struct nc_ready all[4] = {{0}};
    u32 count = 0, kind;
    for (; *text != 0; text++) {
        for (kind = 0; kind < 4 && kinds[kind].letter != *text; kind++) {}
        if (kind == 4) all[count].file = *text == '-' ? -1 : 10 * all[count].file + *text - '0';
        else all[count].wanted = kinds[kind].wanted, all[count++].ready = 99;
    }
    int got = nc_poll(all, count, milliseconds * 1000000ll);
    for (u32 k = 0; k < count; k++) put_octal((u32)all[k].ready), put(1, k + 1 < count ? " " : "\n");
    return got;
}
static int do_same(const char *path, int file) {
    struct nc_status one, other;
    int error = nc_status(path, 0, 0, &one), again = nc_status(0, file, 0, &other);
    return error != 0 ? error : again != 0 ? again : one.device == other.device && one.inode == other.inode;
}
static int do_list(const char *path) {
    int file = nc_open(path, NC_OPEN_FOLDER, 0), got;
    if (file < 0) return file;
    while ((got = nc_list(file, bytes, 96)) > 0)
        for (char *at = bytes; at < bytes + got; at += *(unsigned short *)(at + 16)) put(1, at + 19), put(1, "\n");
    nc_close(file);
    return got;
}
static int do_link(const char *path, int len) {
    char to[100];
    int got = nc_link(path, to, (u32)len);
    if (got > 0) nc_write(1, to, (u32)got), put(1, "\n");
    return got;
}
static int do_where(int file) {
    char to[100];
    int got = nc_where(file, to, sizeof to);
    if (got > 0) put(1, to), put(1, "\n");
    return got;
}
static int do_change(const char *path, const char *mode, int seconds) {
    const long long times[] = {seconds * 1000000000ll + 7, NC_TIME_KEEP};
    return nc_change(path, -1, *mode == '-' ? NC_MODE_KEEP : octal_of(mode), seconds != 0 ? times : 0);
}
static int do_read(int file) {
    int got = nc_read(file, bytes, 100);
    if (got > 0) nc_write(1, bytes, (u32)got), put(1, "\n");
    return got;
}
static long long do_call(const char *name, const char *a, const char *b, const char *c) {
    int n = number_of(a);
    if (same(name, "status")) return do_status(a, number_of(b));
    if (same(name, "status-open")) return do_status_open(n);
    if (same(name, "size")) return nc_size(n);
    if (same(name, "flush")) return nc_flush(n);
    if (same(name, "poll")) return do_poll(a, number_of(b));
    if (same(name, "pipe")) return do_pipe();
    if (same(name, "same")) return do_same(a, number_of(b));
    if (same(name, "list")) return do_list(a);
    if (same(name, "names")) return nc_list(n, bytes, 100);
    if (same(name, "link")) return do_link(a, number_of(b));
    if (same(name, "enter")) return nc_enter(a);
    if (same(name, "where")) return do_where(n);
    if (same(name, "make")) return nc_make(a, octal_of(b));
    if (same(name, "remove")) return nc_remove(a, number_of(b));
    if (same(name, "rename")) return nc_rename(a, b);
    if (same(name, "open")) return nc_open(a, number_of(b), octal_of(c));
    if (same(name, "close")) return nc_close(n);
    if (same(name, "read")) return do_read(n);
    if (same(name, "write")) return nc_write(n, b, length(b));
    if (same(name, "lseek")) return nc_lseek(n, number_of(b), 0);
    if (same(name, "cut")) return nc_cut(n, number_of(b));
    if (same(name, "change")) return do_change(a, b, number_of(c));
    if (same(name, "change-open")) return nc_change(0, n, octal_of(b), 0);
    if (same(name, "copy")) return nc_copy(n, number_of(b), number_of(c));
    if (same(name, "terminal")) return nc_terminal(n);
    if (same(name, "exit")) nc_exit(n);
    if (same(name, "random")) return nc_random(bytes, 1);
    if (same(name, "rows")) return nc_terminal(n) >> 32;
    return -999;
}
int do_calls(char **words) {
    while (*words != 0) {
        const char *name = *words, *given[3] = {"", "", ""};
        for (int k = -1; *words != 0 && !same(*words, ","); words++, k++)
            if (k >= 0 && k < 3) given[k] = *words;
        words += *words != 0;
        line(1, name, do_call(name, given[0], given[1], given[2]));
    }
    return 0;
}
