/* Which files a program gets: regular ones, and none by which the kernel is asked or told something. TRUSTED, NOT PROVED. */
#define _GNU_SOURCE
#include "run.h"

#include <errno.h>
#include <sys/stat.h>
#include <sys/vfs.h>

/* The file systems of the kernel's own: in proc, self/mem is the memory of nc-run, and a write to it ignores what is read-only. They have
   the numbers of linux/magic.h and of the kernel's sources, since headers lack many. */
/* clang-format off */
static const uint32_t OF_KERNEL[] = {
    0x9FA0 /* proc */, 0x62656572 /* sysfs */, 0x64626720 /* debugfs */, 0x74726163 /* tracefs */, 0x73636673 /* securityfs */,
    0x5A3C69F0 /* apparmorfs */, 0xF97CFF8C /* selinuxfs */, 0x43415D53 /* smackfs */, 0x27E0EB /* cgroup */, 0x63677270 /* cgroup2 */,
    0x7655821 /* resctrl */, 0xCAFE4A11 /* bpf */, 0x62656570 /* configfs */, 0x6165676C /* pstore */, 0xDE5E81E4 /* efivarfs */,
    0x42494E4D /* binfmt_misc */, 0x6C6F6F70 /* binder */, 0x1CD1 /* devpts */, 0x65735543 /* fusectl */, 0x6E667364 /* nfsd */,
    0x67596969 /* rpc_pipefs */, 0x76A9F425 /* ocfs2_dlmfs */, 0xABBA1974 /* xenfs */, 0x9FA1 /* openpromfs */, 0x9FA2 /* usbdevfs */,
    0xA647361 /* functionfs */, 0xAEE71EE7 /* gadgetfs */, 0x19800202 /* mqueue */, 0x958458F6 /* hugetlbfs */, 0x6E736673 /* nsfs */,
    0x50494446 /* pidfs */, 0x9041934 /* anonymous inodes */, 0x534F434B /* sockets */, 0x50495045 /* pipes */,
    0x62646576 /* block devices */, 0x64646178 /* dax */, 0x444D4142 /* dma-buf */, 0x454D444D /* devmem */, 0x5345434D /* secretmem */,
};
/* clang-format on */

/* Those where files are stored, and that may all the same tell of no blocks: memory without a limit, layers over that, and servers that
   don't say. Any other file system without blocks is taken for one of the kernel's own, such as one that is younger than this table. */
static const uint32_t WITHOUT_BLOCKS[] = {
    0x1021994 /* tmpfs */, 0x858458F6 /* ramfs */, 0x794C7630 /* overlay */, 0xF15F /* ecryptfs */,
    0x65735546 /* fuse */, 0x1021997 /* 9p */,     0x6969 /* nfs */,         0xFF534D42 /* cifs */,
    0xFE534D42 /* smb2 */, 0xC36400 /* ceph */,    0x5346414F /* afs */,
};

static int has(const uint32_t *table, size_t count, const struct statfs *system) {
    size_t k = 0;
    while (k < count && table[k] != (uint32_t)system->f_type) {
        k++;
    }
    return k < count;
}
#define HAS(table, system) has(table, sizeof table / sizeof *table, system)

int kinds_judge_folder(int file) {
    struct statfs system;
    if (fstatfs(file, &system) != 0) {
        return errno;
    }
    return HAS(OF_KERNEL, &system) || (system.f_blocks == 0 && !HAS(WITHOUT_BLOCKS, &system)) ? EACCES : 0;
}

int kinds_judge_file(int file) {
    struct stat about;
    int error = kinds_judge_folder(file);
    if (error != 0 || files_stat(file, &about) != 0) {
        return error != 0 ? error : errno;
    }
    return S_ISREG(about.st_mode) ? 0 : S_ISDIR(about.st_mode) ? EISDIR : S_ISLNK(about.st_mode) ? ELOOP : EACCES;
}

int kinds_is_proc(int file) {
    struct statfs system;
    return fstatfs(file, &system) == 0 && (uint32_t)system.f_type == OF_KERNEL[0];
}
