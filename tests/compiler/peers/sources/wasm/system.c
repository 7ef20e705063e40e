/* The calls of WASI that the C library makes. There are no files and no clock, and no words in the
   environment, so a module imports nothing. */
#include <stdint.h>

#pragma clang diagnostic ignored "-Wunused-parameter" /* nothing looks at what is given */

enum { BAD_FILE = 8 };
#define CALL(name, ...) \
    int32_t __imported_wasi_snapshot_preview1_##name(__VA_ARGS__); \
    int32_t __imported_wasi_snapshot_preview1_##name(__VA_ARGS__)
#define FAILS(name, ...) \
    CALL(name, __VA_ARGS__) { \
        return BAD_FILE; \
    }

FAILS(clock_time_get, int32_t clock, int64_t precision, int32_t time)
FAILS(fd_close, int32_t file)
FAILS(fd_fdstat_get, int32_t file, int32_t status)
FAILS(fd_fdstat_set_flags, int32_t file, int32_t flags)
FAILS(fd_prestat_dir_name, int32_t file, int32_t name, int32_t len)
FAILS(fd_prestat_get, int32_t file, int32_t status)
FAILS(fd_read, int32_t file, int32_t parts, int32_t count, int32_t len)
FAILS(fd_renumber, int32_t file, int32_t to)
FAILS(fd_seek, int32_t file, int64_t offset, int32_t from, int32_t place)
FAILS(fd_write, int32_t file, int32_t parts, int32_t count, int32_t len)
FAILS(path_open, int32_t folder, int32_t lookup, int32_t path, int32_t len, int32_t how, int64_t rights, int64_t inherited, int32_t flags,
      int32_t file)

CALL(environ_get, int32_t environment, int32_t texts) {
    return 0;
}

CALL(environ_sizes_get, int32_t count, int32_t size) {
    *(uint32_t *)count = 0;
    *(uint32_t *)size = 0;
    return 0;
}

_Noreturn void __imported_wasi_snapshot_preview1_proc_exit(int32_t status);
_Noreturn void __imported_wasi_snapshot_preview1_proc_exit(int32_t status) {
    __builtin_trap();
}
