/* Source lines of a program's code. nc-run doesn't read them from the file, which may have been made to harm: it tells the command that does,
   as its user may trust the file. TRUSTED, NOT PROVED. */
#include "run.h"

#include <elf.h>
#include <stdio.h>
#include <string.h>

static const char NAME[] = ".debug_line";

/* Whether the table of sections and its names are in the file. Each number of it is untrusted. */
static int find_table(const uint8_t *bytes, size_t len, Elf32_Ehdr *h, Elf32_Shdr *names) {
    uint64_t at;
    if (len < sizeof *h) {
        return 0;
    }
    memcpy(h, bytes, sizeof *h);
    at = h->e_shoff + (uint64_t)h->e_shstrndx * sizeof *names;
    if (h->e_shentsize != sizeof *names || h->e_shoff + (uint64_t)h->e_shnum * sizeof *names > len || h->e_shstrndx >= h->e_shnum) {
        return 0;
    }
    memcpy(names, bytes + at, sizeof *names);
    return (uint64_t)names->sh_offset + names->sh_size <= len;
}

int lines_are_in(const uint8_t *bytes, size_t len) {
    Elf32_Ehdr h;
    Elf32_Shdr names, s;
    unsigned k;
    if (!find_table(bytes, len, &h, &names)) {
        return 0;
    }
    for (k = 0; k < h.e_shnum; k++) {
        memcpy(&s, bytes + h.e_shoff + (size_t)k * sizeof s, sizeof s);
        if ((uint64_t)s.sh_name + sizeof NAME <= names.sh_size && memcmp(bytes + names.sh_offset + s.sh_name, NAME, sizeof NAME) == 0) {
            return 1;
        }
    }
    return 0;
}

/* A name as a word for a shell. */
static void print_quoted(const char *name) {
    fputc('\'', stderr);
    for (; *name != 0; name++) {
        if (*name == '\'') {
            fputs("'\\''", stderr);
        } else {
            fputc(*name, stderr);
        }
    }
    fputc('\'', stderr);
}

static int is_plain(const char *name) {
    static const char plain[] = "abcdefghijklmnopqrstuvwxyzABCDEFGHIJKLMNOPQRSTUVWXYZ0123456789_./+-";
    return name[0] != '-' && name[strspn(name, plain)] == 0;
}

/* Nothing that moves a terminal's cursor is told to be pasted. */
static int is_printable(const char *name) {
    while ((unsigned char)*name >= ' ' && *name != 0x7F) {
        name++;
    }
    return *name == 0;
}

void lines_print_command(const char *file, const uint32_t *places, size_t count) {
    size_t k;
    if (!is_printable(file)) {
        return;
    }
    fputs("  lines: addr2line -fipe ", stderr);
    if (is_plain(file)) {
        fputs(file, stderr);
    } else {
        print_quoted(file);
    }
    for (k = 0; k < count; k++) {
        fprintf(stderr, " %x", (unsigned)places[k]);
    }
    fputc('\n', stderr);
}
