/* The host's memory: the same pages writable at an address that only this file knows, and executable at another. */
#define _GNU_SOURCE
#include <linux/membarrier.h>
#include <stdbool.h>
#include <stdint.h>
#include <stdlib.h>
#include <string.h>
#include <sys/mman.h>
#include <sys/syscall.h>
#include <unistd.h>

#define START 0x10000u
#define STOP 0xF4

static uint8_t *writable, *executable;

bool host_map(uint32_t len) {
    int file = memfd_create("region", 0);
    if (file < 0 || ftruncate(file, len) != 0) {
        return false;
    }
    writable = mmap(NULL, len, PROT_READ | PROT_WRITE, MAP_SHARED, file, 0);
    executable = mmap(NULL, len, PROT_READ | PROT_EXEC, MAP_SHARED, file, 0);
    close(file);
    if (writable == MAP_FAILED || executable == MAP_FAILED) {
        return false;
    }
    memset(writable, STOP, len);
    return syscall(SYS_membarrier, MEMBARRIER_CMD_REGISTER_PRIVATE_EXPEDITED_SYNC_CORE, 0, 0) == 0;
}

void host_put(uint32_t at, uint8_t byte) {
    __atomic_store_n(&writable[at - START], byte, __ATOMIC_SEQ_CST);
}

void host_serialize(void) {
    if (syscall(SYS_membarrier, MEMBARRIER_CMD_PRIVATE_EXPEDITED_SYNC_CORE, 0, 0) != 0) {
        abort();
    }
}

uint8_t host_byte(uint32_t at) {
    return executable[at - START];
}
