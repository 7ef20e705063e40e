/* What `tcc -run` does otherwise in the sandbox. tccrun.c includes it. */
/* clang-format off */

#include <nc_code.h>
#include <nc_flat.h>

/* ---- Headers in memory */

static const struct nc_header {
    const char *name, *text;
    unsigned len;
} nc_headers[] = {
#include "headers.h"
};

/* Opens a header of the C library or of tcc by its path below CONFIG_TCCDIR. Returns whether there is one. */
static int nc_open_header(TCCState *s1, const char *path)
{
    const char *place = CONFIG_TCC_SYSINCLUDEPATHS "/";
    unsigned k;

    if (strncmp(path, place, strlen(place)) != 0)
        return 0;
    path += strlen(place);
    for (k = 0; k < sizeof nc_headers / sizeof *nc_headers; k++) {
        if (strcmp(nc_headers[k].name, path) == 0) {
            tcc_open_bf(s1, path, (int)nc_headers[k].len);
            memcpy(file->buffer, nc_headers[k].text, nc_headers[k].len);
            return 1;
        }
    }
    return 0;
}

/* ---- Names of the C library */

#define KNOWN(name) extern char nc_at_##name[] __asm__(#name);
#include "known.h"
#undef KNOWN

static const struct nc_known {
    const char *name;
    char *at;
} nc_all_known[] = {
#define KNOWN(name) {#name, nc_at_##name},
#include "known.h"
#undef KNOWN
};

static int nc_compare(const void *name, const void *known)
{
    return strcmp(name, ((const struct nc_known *)known)->name);
}

/* Gives what isn't defined its address in the C library, so that tcc makes no jumps to it by way of memory. */
static void nc_resolve(TCCState *s1)
{
    const struct nc_known *found;
    ElfW(Sym) *sym;

    for_each_elem(s1->symtab, 1, sym, ElfW(Sym)) {
        const char *name = (char *)s1->symtab->link->data + sym->st_name;
        if (sym->st_shndx != SHN_UNDEF)
            continue;
        found = bsearch(name, nc_all_known, sizeof nc_all_known / sizeof *nc_all_known, sizeof *nc_all_known, nc_compare);
        if (found != NULL) {
            sym->st_shndx = SHN_ABS;
            sym->st_value = (addr_t)found->at;
        }
    }
}

/* ---- Layout: tcc's finished code becomes code in bundles, and its relocations and symbols move with it. */

static ElfW_Rel *nc_relocations(Section *text, int *count)
{
    *count = text->reloc != NULL ? (int)(text->reloc->data_offset / sizeof(ElfW_Rel)) : 0;
    return *count != 0 ? (ElfW_Rel *)text->reloc->data : NULL;
}

/* Reads the code. Every symbol may be reached from elsewhere. */
static void nc_read(TCCState *s1, Section *text, NcFlat *flat)
{
    int count, k;
    ElfW_Rel *rels = nc_relocations(text, &count);
    ElfW(Sym) *sym;

    if (!nc_flat_begin(flat, text->data_offset))
        tcc_error("no memory for bundles");
    for (k = 0; k < count; k++)
        nc_flat_foreign(flat, rels[k].r_offset);
    for_each_elem(s1->symtab, 1, sym, ElfW(Sym))
        if (sym->st_shndx == text->sh_num)
            nc_flat_entry(flat, sym->st_value);
    if (!nc_flat_read(flat, text->data)) {
        const unsigned char *at = text->data + flat->len;
        tcc_error("the sandbox has no such instruction: %02x %02x %02x", at[0], at[1], at[2]);
    }
}

/* Moves relocations, with the four bytes that each begins with, and symbols. */
static void nc_move(TCCState *s1, Section *text, const NcFlat *flat, unsigned char *made, uint32_t size)
{
    int count, k;
    ElfW_Rel *rels = nc_relocations(text, &count);
    ElfW(Sym) *sym;

    for (k = 0; k < count; k++) {
        uint32_t to = nc_flat_place(flat, rels[k].r_offset);
        if (to > size - 4)
            tcc_error("a relocation is in no instruction");
        memcpy(made + to, text->data + rels[k].r_offset, 4);
        rels[k].r_offset = to;
    }
    for_each_elem(s1->symtab, 1, sym, ElfW(Sym))
        if (sym->st_shndx == text->sh_num)
            sym->st_value = nc_flat_place(flat, sym->st_value);
}

static void nc_lay_out(TCCState *s1)
{
    Section *text = text_section;
    NcFlat flat;
    unsigned char *made;
    uint32_t size;

    if (s1->nb_errors || text->data_offset == 0)
        return;
    nc_read(s1, text, &flat);
    size = nce_layout(&flat.code);
    if (size == 0)
        tcc_error("no layout of the code: fault %u", (unsigned)flat.code.fault);
    made = tcc_malloc(size);
    nce_write(&flat.code, 0, made);
    nc_move(s1, text, &flat, made, size);
    tcc_free(text->data);
    text->data = made;
    text->data_offset = text->data_allocated = size;
    nc_flat_end(&flat);
}

/* ---- Code */

static struct nc_made {
    TCCState *state;
    void *code;
    struct nc_made *next;
} *nc_all_made;

/* Whether a section is code. It gets room for code once there is memory for the others. */
static int nc_has_room(TCCState *s1, Section *s, addr_t mem)
{
    if (!(s->sh_flags & SHF_EXECINSTR))
        return 0;
    s->sh_addr = mem && s->data_offset ? nc_code_span(s->data_offset) : 0;
    if (mem && s->data_offset && !s->sh_addr)
        tcc_error("no room for %u bytes of code: is there nc-run --live-code?", (unsigned)s->data_offset);
    return 1;
}

/* Whether a section is code. Then the host has made it. */
static int nc_is_made(TCCState *s1, Section *s)
{
    struct nc_made *one;

    if (!(s->sh_flags & SHF_EXECINSTR))
        return 0;
    if (s->data_offset != 0) {
        one = tcc_malloc(sizeof *one);
        one->state = s1;
        one->code = nc_code_put(s->sh_addr, s->data, s->data_offset);
        if (one->code == NULL)
            tcc_error("the host refuses the code: fault %d at %08x", nc_code_why.fault, (unsigned)nc_code_why.at);
        one->next = nc_all_made;
        nc_all_made = one;
    }
    return 1;
}

/* Deletes the code of a compiler. */
static void nc_forget(TCCState *s1)
{
    struct nc_made **place = &nc_all_made, *one;

    while ((one = *place) != NULL) {
        if (one->state != s1) {
            place = &one->next;
            continue;
        }
        nc_code_free(one->code);
        *place = one->next;
        tcc_free(one);
    }
}

/* ---- What tcc's code calls for numbers of 64 bits, besides division */

long long __ashldi3(long long value, int by)
{
    return value << by;
}

long long __ashrdi3(long long value, int by)
{
    return value >> by;
}

unsigned long long __lshrdi3(unsigned long long value, int by)
{
    return value >> by;
}
