/* The system calls with paths. nc-run makes paths plain, and keeps the folder where they begin. */

#include <fcntl.h>
#include <limits.h>
#include <stdint.h>
#include <string.h>
#include <sys/stat.h>
#include <sys/sysmacros.h>
#include "calls.h"
#include "kstat.h"

enum { BLOCK_SIZE = 4096, NOT_FIRST = 022, HOUR = 3600, CENTURIES = 200 };

/* In the form of Linux. */
struct moment {
    int64_t seconds;
    uint32_t nanoseconds, none;
};
struct about {
    uint32_t mask, block_size;
    uint64_t attributes;
    uint32_t links, user, group;
    uint16_t mode, none;
    uint64_t inode, size, blocks, attributes_mask;
    struct moment accessed, born, changed, modified;
    uint32_t device_of[2], device[2];
    uint64_t more[14];
};

static unsigned mask = NOT_FIRST;

/* A path that begins at an open folder gets the folder's path before it, in this room. 0, or an error. */
static long begin_at(int at, const char **path, char room[PATH_MAX]) {
    if (at == AT_FDCWD || !*path || **path == '/') return 0;
    long len = nc_where(at, room, PATH_MAX);
    size_t rest = strlen(*path);
    if (len < 0 || !rest) return len < 0 ? len : -ENOENT;
    if (len + rest >= PATH_MAX) return -ENAMETOOLONG;
    room[len - 1] = '/';
    memcpy(room + len, *path, rest + 1);
    *path = room;
    return 0;
}

static struct moment moment_of(long long time) {
    long long rest = time % BILLION;
    return (struct moment){.seconds = time / BILLION - (rest < 0), .nanoseconds = (uint32_t)(rest < 0 ? rest + BILLION : rest)};
}

static long tell(int at, const char *path, int flags, struct about *to) {
    char room[PATH_MAX];
    struct nc_status about;
    int is_open = (flags & AT_EMPTY_PATH) && path && !*path, how = flags & AT_SYMLINK_NOFOLLOW ? NC_OPEN_NO_LINK : 0;
    if (!is_open && !path) return -EFAULT;
    if (is_open && at == AT_FDCWD) path = ".", is_open = 0;
    long error = is_open ? 0 : begin_at(at, &path, room);
    if (!error) error = nc_status(is_open ? 0 : path, at, is_open ? 0 : how, &about);
    if (error) return error;
    *to = (struct about){.mask = 0x7ff,
                         .block_size = BLOCK_SIZE,
                         .links = about.links,
                         .user = OWN_ID,
                         .group = OWN_ID,
                         .mode = about.mode,
                         .inode = about.inode,
                         .size = about.size,
                         .blocks = about.blocks,
                         .accessed = moment_of(about.accessed),
                         .changed = moment_of(about.changed),
                         .modified = moment_of(about.modified),
                         .device = {major(about.device), minor(about.device)}};
    return 0;
}

/* In an older form, without the nanoseconds, for what only asks whether something is there. */
static long tell_short(int at, const char *path, int flags, struct kstat *to) {
    struct about about;
    long error = tell(at, path, flags, &about);
    if (error) return error;
    *to = (struct kstat){.st_dev = makedev(about.device[0], about.device[1]),
                         .st_ino = about.inode,
                         .st_mode = about.mode,
                         .st_nlink = about.links,
                         .st_uid = about.user,
                         .st_gid = about.group,
                         .st_size = (off_t)about.size,
                         .st_blksize = BLOCK_SIZE,
                         .st_blocks = (blkcnt_t)about.blocks,
                         .st_atime_sec = (long)about.accessed.seconds,
                         .st_mtime_sec = (long)about.modified.seconds,
                         .st_ctime_sec = (long)about.changed.seconds};
    return 0;
}

/* Judged by the rights of the owner. */
static long may(int at, const char *path, unsigned want, int flags) {
    struct about about;
    long error = tell(at, path, flags & AT_SYMLINK_NOFOLLOW, &about);
    return error ? error : (about.mode >> 6 & want) == want ? 0 : -EACCES;
}

static long open_at(int at, const char *path, int how, unsigned mode) {
    char room[PATH_MAX];
    long error = begin_at(at, &path, room);
    return error ? error : nc_open(path, how & ~(O_LARGEFILE | O_CLOEXEC | O_NOCTTY | O_NONBLOCK), mode & ~mask);
}

static long make_at(int at, const char *path, unsigned mode) {
    char room[PATH_MAX];
    long error = begin_at(at, &path, room);
    return error ? error : nc_make(path, mode & ~mask);
}

static long remove_at(int at, const char *path, int flags) {
    char room[PATH_MAX];
    long error = flags & ~AT_REMOVEDIR ? -EINVAL : begin_at(at, &path, room);
    return error ? error : nc_remove(path, flags != 0);
}

static long rename_at(int at, const char *path, int to_at, const char *to) {
    char room[PATH_MAX], to_room[PATH_MAX];
    long error = begin_at(at, &path, room);
    if (!error) error = begin_at(to_at, &to, to_room);
    return error ? error : nc_rename(path, to);
}

static long link_at(int at, const char *path, char *to, unsigned len) {
    char room[PATH_MAX];
    long error = begin_at(at, &path, room);
    return error ? error : nc_link(path, to, len);
}

static long change_mode_at(int at, const char *path, unsigned mode) {
    char room[PATH_MAX];
    long error = path ? begin_at(at, &path, room) : -EFAULT;
    return error ? error : nc_change(path, -1, mode, 0);
}

/* All files have one owner and one group, and keep them. */
static long change_owner(int at, const char *path, long user, long group, int flags) {
    struct about about;
    long error = tell(at, path, flags, &about);
    return error ? error : (user == -1 || user == OWN_ID) && (group == -1 || group == OWN_ID) ? 0 : -EPERM;
}

static long cut(const char *path, long low, long high) {
    int file = nc_open(path, NC_OPEN_WRITE, 0);
    if (file < 0) return file;
    long error = nc_cut(file, (long long)high << 32 | (unsigned long)low);
    nc_close(file);
    return error;
}

/* Whether a time, as two numbers, is one that nc-run takes. */
static int is_time(const long long time[2], long long *to) {
    const long long most = 365ll * 24 * HOUR * CENTURIES;
    *to = time[1] == UTIME_NOW ? NC_TIME_NOW : time[1] == UTIME_OMIT ? NC_TIME_KEEP : time[0] * BILLION + time[1];
    return time[1] == UTIME_NOW || time[1] == UTIME_OMIT || (time[1] >= 0 && time[1] < BILLION && time[0] < most && time[0] > -most);
}

/* Times that aren't there are the present. What is a link itself isn't changed. */
static long change_times(int at, const char *path, const long long *given, int flags) {
    char room[PATH_MAX];
    struct about about;
    long long times[2] = {NC_TIME_NOW, NC_TIME_NOW};
    if (given && !(is_time(given, &times[0]) && is_time(given + 2, &times[1]))) return -EINVAL;
    if (path && flags & AT_SYMLINK_NOFOLLOW && !tell(at, path, flags, &about) && S_ISLNK(about.mode)) return -EOPNOTSUPP;
    long error = path ? begin_at(at, &path, room) : 0;
    return error ? error : nc_change(path, at, NC_MODE_KEEP, times);
}

static long change_times_short(int at, const char *path, const long *given, int flags) {
    long long times[4];
    for (int k = 0; given && k < 4; k++) times[k] = given[k];
    return change_times(at, path, given ? times : 0, flags);
}

static long set_mask(unsigned next) {
    long was = mask;
    mask = next & 0777;
    return was;
}

/* Those with a folder's number. */
static long call_at(long number, int at, long b, long c, long d, long e) {
    const char *path = (const char *)b;
    switch (number) {
    case SYS_openat: return open_at(at, path, (int)c, (unsigned)d);
    case SYS_fstatat64: return tell_short(at, path, (int)d, (struct kstat *)c);
    case SYS_faccessat: return may(at, path, (unsigned)c, 0);
    case SYS_faccessat2: return may(at, path, (unsigned)c, (int)d);
    case SYS_mkdirat: return make_at(at, path, (unsigned)c);
    case SYS_unlinkat: return remove_at(at, path, (int)c);
    case SYS_renameat: return rename_at(at, path, (int)c, (const char *)d);
    case SYS_readlinkat: return link_at(at, path, (char *)c, (unsigned)d);
    case SYS_fchownat: return change_owner(at, path, c, d, (int)e);
    case SYS_fchown32: return change_owner(at, "", b, c, AT_EMPTY_PATH);
    case SYS_fchmodat: return change_mode_at(at, path, (unsigned)c);
    case SYS_utimensat: return change_times_short(at, path, (const long *)c, (int)d);
    case SYS_utimensat_time64: return change_times(at, path, (const long long *)c, (int)d);
    case SYS_fchmod: return nc_change(0, at, (unsigned)b, 0);
    default: return -ENOSYS;
    }
}

static long enter_file(int file) {
    char room[PATH_MAX];
    long len = nc_where(file, room, sizeof room);
    return len < 0 ? len : nc_enter(room);
}

long call_of_names(long number, long a, long b, long c, long d, long e) {
    const char *path = (const char *)a;
    switch (number) {
    case SYS_open: return open_at(AT_FDCWD, path, (int)b, (unsigned)c);
    case SYS_statx: return tell((int)a, (const char *)b, (int)c, (struct about *)e);
    case SYS_stat64: return tell_short(AT_FDCWD, path, 0, (struct kstat *)b);
    case SYS_lstat64: return tell_short(AT_FDCWD, path, AT_SYMLINK_NOFOLLOW, (struct kstat *)b);
    case SYS_fstat64: return tell_short((int)a, "", AT_EMPTY_PATH, (struct kstat *)b);
    case SYS_access: return may(AT_FDCWD, path, (unsigned)b, 0);
    case SYS_mkdir: return make_at(AT_FDCWD, path, (unsigned)b);
    case SYS_rmdir: return nc_remove(path, 1);
    case SYS_unlink: return nc_remove(path, 0);
    case SYS_rename: return nc_rename(path, (const char *)b);
    case SYS_readlink: return nc_link(path, (char *)b, (unsigned)c);
    case SYS_chmod: return change_mode_at(AT_FDCWD, path, (unsigned)b);
    case SYS_chown32: return change_owner(AT_FDCWD, path, b, c, 0);
    case SYS_lchown32: return change_owner(AT_FDCWD, path, b, c, AT_SYMLINK_NOFOLLOW);
    case SYS_truncate64: return cut(path, b, c);
    case SYS_chdir: return nc_enter(path);
    case SYS_fchdir: return enter_file((int)a);
    case SYS_getcwd: return nc_where(NC_WHERE, (char *)a, (unsigned)b);
    case SYS_umask: return set_mask((unsigned)a);
    default: return call_at(number, (int)a, b, c, d, e);
    }
}
