/* The host's end of the calls with paths. A path is copied once, and then judged. TRUSTED, NOT PROVED. */
#include "serve.h"

#include <errno.h>
#include <string.h>

int serve_path(NcsBox *box, uint32_t at, char path[PATH_MAX]) {
    long len = ncs_text(box, path, PATH_MAX, (NcsAt){at});
    return len < 0 ? EFAULT : len == PATH_MAX - 1 ? ENAMETOOLONG : 0;
}

/* What a call returns; and notes which option would have let it succeed. */
static uint64_t named(Run *run, long long number) {
    run->lacks_right |= number == -EROFS;
    run->lacks_folder |= number == -EACCES && run->files.view.count == 0;
    return result_of(number);
}

uint64_t call_open(NcsBox *box, void *user, const uint32_t *args) {
    char path[PATH_MAX];
    int error = serve_path(box, args[0], path);
    return error != 0 ? failed(error) : named(user, opening_open(&((Run *)user)->files, path, args[1], args[2]));
}

uint64_t call_status(NcsBox *box, void *user, const uint32_t *args) {
    char path[PATH_MAX];
    struct nc_status status;
    int error = args[0] != 0 ? serve_path(box, args[0], path) : 0;
    if (error == 0) {
        error = -about_tell(&((Run *)user)->files, args[0] != 0 ? path : NULL, args[1], args[2], &status);
    }
    return named(user, error != 0 ? -error : ncs_set(box, (NcsAt){args[3]}, &status, sizeof status) ? 0 : -EFAULT);
}

uint64_t call_link(NcsBox *box, void *user, const uint32_t *args) {
    char path[PATH_MAX], to[PATH_MAX];
    int error = serve_path(box, args[0], path), len;
    if (error != 0) {
        return failed(error);
    }
    len = about_link(&((Run *)user)->files, path, to);
    if (len < 0) {
        return named(user, len);
    }
    len = (uint32_t)len < args[2] ? len : (int)args[2];
    return len == 0 || ncs_set(box, (NcsAt){args[1]}, to, (uint32_t)len) ? result_of(len) : failed(EFAULT);
}

uint64_t call_enter(NcsBox *box, void *user, const uint32_t *args) {
    char path[PATH_MAX];
    int error = serve_path(box, args[0], path);
    return error != 0 ? failed(error) : named(user, names_enter(&((Run *)user)->files, path));
}

uint64_t call_where(NcsBox *box, void *user, const uint32_t *args) {
    Files *files = &((Run *)user)->files;
    const Open *file = files_of(files, args[0]);
    const char *name = args[0] == (uint32_t)NC_WHERE ? files->view.where : file != NULL ? file->name : NULL;
    uint32_t len;
    if (name == NULL) {
        return failed(file != NULL ? ENOTDIR : EBADF);
    }
    name = name[0] != 0 ? name : "/";
    len = (uint32_t)strlen(name) + 1;
    return len > args[2] ? failed(ERANGE) : ncs_set(box, (NcsAt){args[1]}, name, len) ? result_of(len) : failed(EFAULT);
}

uint64_t call_make(NcsBox *box, void *user, const uint32_t *args) {
    char path[PATH_MAX];
    int error = serve_path(box, args[0], path);
    return error != 0 ? failed(error) : named(user, names_make(&((Run *)user)->files, path, args[1]));
}

uint64_t call_remove(NcsBox *box, void *user, const uint32_t *args) {
    char path[PATH_MAX];
    int error = serve_path(box, args[0], path);
    return error != 0 ? failed(error) : named(user, names_remove(&((Run *)user)->files, path, args[1]));
}

uint64_t call_rename(NcsBox *box, void *user, const uint32_t *args) {
    char path[PATH_MAX], to[PATH_MAX];
    int error = serve_path(box, args[0], path);
    error = error != 0 ? error : serve_path(box, args[1], to);
    return error != 0 ? failed(error) : named(user, names_rename(&((Run *)user)->files, path, to));
}

uint64_t call_change(NcsBox *box, void *user, const uint32_t *args) {
    char path[PATH_MAX];
    int64_t times[2];
    int error = args[0] != 0 ? serve_path(box, args[0], path) : 0;
    if (error != 0 || (args[3] != 0 && !ncs_get(box, times, (NcsAt){args[3]}, sizeof times))) {
        return failed(error != 0 ? error : EFAULT);
    }
    return named(user, about_change(&((Run *)user)->files, args[0] != 0 ? path : NULL, args[1], args[2], args[3] != 0 ? times : NULL));
}
