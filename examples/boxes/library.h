/* A library in a box, and files, for all hosts of this folder. */
#ifndef LIBRARY_H
#define LIBRARY_H

#include "nc_sandbox.h"

#include <stdio.h>
#include <stdlib.h>

#define SKIPPED 77

typedef struct Library {
    NcsModule *module;
    NcsBox *box;
    NcsEnd end; /* of the last call */
} Library;

/* A whole file; its length. It ends the process if the file can't be read, or is longer than `room`. */
static inline uint32_t read_file(const char *name, void *to, size_t room) {
    FILE *file = fopen(name, "rb");
    size_t len = file != NULL ? fread(to, 1, room, file) : 0;
    if (file == NULL || ferror(file) || fgetc(file) != EOF) {
        fprintf(stderr, "%s: it can't be read, or is too long\n", name);
        exit(2);
    }
    (void)fclose(file);
    return (uint32_t)len;
}

/* A picture as NAME.ppm, with three bytes for each pixel. It ends the process if the file can't be written. */
static inline void write_ppm(const char *name, const void *pixels, uint32_t width, uint32_t height) {
    char path[4096];
    FILE *file = snprintf(path, sizeof path, "%s.ppm", name) < (int)sizeof path ? fopen(path, "wb") : NULL;
    int wrong = file == NULL || fprintf(file, "P6\n%u %u\n255\n", (unsigned)width, (unsigned)height) < 0 ||
                fwrite(pixels, 3, (size_t)width * height, file) != (size_t)width * height;
    if (file == NULL || fclose(file) != 0 || wrong) {
        fprintf(stderr, "%s.ppm: it can't be written\n", name);
        exit(2);
    }
}

/* A box of a module, or `why` there is no module. It ends the process if one is refused, with SKIPPED where the system has no boxes. */
static inline Library library_of(const char *name, NcsModule *module, NcsRefusal *why, uint32_t memory, uint32_t milliseconds) {
    const NcsLimits limits = {.memory = memory, .depth = 1, .milliseconds = milliseconds};
    Library library = {module, module != NULL ? ncs_box_new(module, &limits, why) : NULL, {0}};
    if (library.box == NULL) {
        fprintf(stderr, "%s: refused: %s, at %08x\n", name, why->sentence, (unsigned)why->at);
        exit(why->kind == NCS_BAD_SYSTEM ? SKIPPED : 2);
    }
    return library;
}

/* A box of an ELF file. */
static inline Library library_open(const char *name, uint32_t memory, uint32_t milliseconds) {
    static uint8_t bytes[4 << 20];
    NcsRefusal why;
    NcsModule *module = ncs_module_elf(bytes, read_file(name, bytes, sizeof bytes), &why);
    return library_of(name, module, &why, memory, milliseconds);
}

/* What a function returned, or 0 where the call ended otherwise. If that left the box dead, later calls give 0 too, until its reset. */
static inline uint32_t library_call(Library *library, const char *name, unsigned count, const uint32_t *args) {
    NcsEnd end = ncs_call(library->box, ncs_symbol(library->module, name), count, args);
    if (end.how != NCS_DEAD) {
        library->end = end;
    }
    return end.how == NCS_RETURNED ? end.result : 0;
}

/* A new life for the box, in which the library's own allocator has this much memory (musl.c). */
static inline void library_begin(Library *library, uint32_t heap) {
    NcsAt at = {0};
    if (ncs_reset(library->box)) {
        at = ncs_take(library->box, heap);
    }
    (void)library_call(library, "begin", NCS_ARGS(at.at, at.at + heap));
}

/* 0, or 1 where a call is under way. */
static inline int library_close(Library *library) {
    int freed = ncs_free(library->box);
    ncs_module_free(library->module);
    return !freed;
}

#endif
