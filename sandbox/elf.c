/* Reads an ELF file that may have been made to harm. nc_host_elf, which is proved, judges its segments; its symbols are judged here, before
   anything else looks there. TRUSTED, NOT PROVED. */
#define NC_FAULT_NAMES
#include "inner.h"

#include <elf.h>
#include <string.h>

#define NAME_MOST 255u          /* bytes of a name that is shown */
#define LOOKED_AT 4096u         /* names, at most, for the one of a place */
#define SYMBOLS_MOST (1u << 20) /* those of a file behind them are none, so that a search takes a fraction of a second */

static int file_has(const Image *image, uint64_t at, uint64_t len) {
    return at <= image->len && len <= image->len - at;
}

/* The segments of a file that nc_host_elf has judged. Only one that is linked for its addresses can be loaded as it is. */
static const char *read_segments(Image *image) {
    NcSegments found = nc_host_elf(image->bytes, image->len, image->segments, SEGMENTS);
    Elf32_Ehdr h;
    if (found.fault != NC_OK) {
        return found.fault == NC_NO_ROOM ? "it has too many segments" : nc_fault_sentence(found.fault);
    }
    memcpy(&h, image->bytes, sizeof h);
    if (h.e_type != ET_EXEC) {
        return "it isn't a program that is linked for its addresses";
    }
    image->entry = h.e_entry;
    image->segment_count = found.count;
    return NULL;
}

/* A segment of the data widens the span of the data; the one of the code is noted. */
static const char *note_segment(Image *image, const NcSegment *s) {
    uint32_t end = s->address + s->memory_len;
    if (s->address < DATA_LEAST || s->memory_len > NCS_MEMORY_MAX || s->address > NCS_MEMORY_MAX - s->memory_len) {
        return "a segment is below 00010000 or above 1 GiB";
    }
    if ((s->flags & PF_X) == 0) {
        image->data_begin = s->address < image->data_begin ? s->address : image->data_begin;
        image->data_end = end > image->data_end ? end : image->data_end;
        return NULL;
    }
    if (image->code_len != 0) {
        return "it has more than one segment of code";
    }
    image->code_at = s->address;
    image->code_len = s->file_len;
    image->code_offset = s->offset;
    return NULL;
}

/* The section with this index, and whether all of it is in the file. */
static int section(const Image *image, const Elf32_Ehdr *h, uint32_t k, Elf32_Shdr *s) {
    uint64_t at = h->e_shoff + (uint64_t)k * sizeof *s;
    if (k >= h->e_shnum || h->e_shentsize != sizeof *s || !file_has(image, at, sizeof *s)) {
        return 0;
    }
    memcpy(s, image->bytes + at, sizeof *s);
    return file_has(image, s->sh_offset, s->sh_size);
}

/* The first table of symbols, with its names, which end with a 0. A file without one, or with one that makes no sense, has no symbols. */
static void find_symbols(Image *image) {
    Elf32_Ehdr h;
    Elf32_Shdr table, names;
    unsigned k = 0;
    memcpy(&h, image->bytes, sizeof h);
    while (k < h.e_shnum && !(section(image, &h, k, &table) && table.sh_type == SHT_SYMTAB)) {
        k++;
    }
    if (k < h.e_shnum && section(image, &h, table.sh_link, &names) && names.sh_size != 0 &&
        image->bytes[names.sh_offset + names.sh_size - 1] == 0) {
        image->symbols = table.sh_offset;
        image->symbol_count = table.sh_size / sizeof(Elf32_Sym);
        image->symbol_count = image->symbol_count < SYMBOLS_MOST ? image->symbol_count : SYMBOLS_MOST;
        image->names = names.sh_offset;
        image->names_len = names.sh_size;
    }
}

const char *ncs_elf_read(Image *image) {
    const char *wrong = read_segments(image);
    size_t k;
    image->data_begin = UINT32_MAX;
    for (k = 0; wrong == NULL && k < image->segment_count; k++) {
        wrong = note_segment(image, &image->segments[k]);
    }
    if (wrong != NULL) {
        return wrong;
    }
    if (image->data_begin == UINT32_MAX) {
        image->data_begin = image->data_end = STACK_TOP;
    }
    if (image->data_begin < DATA_LEAST + STACK_LEAST) {
        return "there is no room for a stack below its data: it has to begin at 00020000 or above";
    }
    find_symbols(image);
    return NULL;
}

uint32_t ncs_elf_symbol(const Image *image, const char *name) {
    const char *names = (const char *)image->bytes + image->names;
    size_t k;
    for (k = 0; k < image->symbol_count; k++) {
        Elf32_Sym s;
        memcpy(&s, image->bytes + image->symbols + k * sizeof s, sizeof s);
        if (s.st_name < image->names_len && s.st_shndx != SHN_UNDEF && ELF32_ST_BIND(s.st_info) != STB_LOCAL &&
            strcmp(names + s.st_name, name) == 0) {
            return s.st_value;
        }
    }
    return 0;
}

/* Whether a symbol names a place of the code. Data may have the same addresses as code, so the section decides. */
static int is_of_code(const Image *image, const Elf32_Ehdr *h, const Elf32_Sym *s) {
    unsigned kind = ELF32_ST_TYPE(s->st_info);
    Elf32_Shdr of;
    return (kind == STT_FUNC || kind == STT_NOTYPE) && section(image, h, s->st_shndx, &of) && (of.sh_flags & SHF_EXECINSTR) != 0 &&
           s->st_value >= image->code_at && s->st_value - image->code_at < image->code_len;
}

/* The symbol's name, or NULL if it isn't fit to be printed: a file may name anything. Nothing behind the names is read, even if the file
   changes meanwhile. */
static const char *shown_name(const Image *image, const Elf32_Sym *s) {
    const char *name = (const char *)image->bytes + image->names + s->st_name;
    size_t len = 0, most;
    if (s->st_name >= image->names_len) {
        return NULL;
    }
    most = image->names_len - s->st_name < NAME_MOST + 1 ? image->names_len - s->st_name : NAME_MOST + 1;
    while (len < most && name[len] > ' ' && name[len] <= '~') {
        len++;
    }
    return len != 0 && len < most && name[len] == 0 && name[0] != '$' && !(name[0] == '.' && name[1] == 'L') ? name : NULL;
}

/* The nearest one at the address or below it. Of several at one address the last one of the table counts, as for nc_check. Compilers lay
   symbols out in the order of addresses, so from the end on few names are looked at, unless a file was made to take time. */
const char *ncs_elf_function(const Image *image, uint32_t at, uint32_t *offset) {
    const char *found = NULL, *name;
    uint32_t nearest = image->code_at, looked_at = 0;
    Elf32_Ehdr h;
    size_t k;
    if (at < image->code_at || at - image->code_at >= image->code_len || image->symbol_count == 0) {
        return NULL;
    }
    memcpy(&h, image->bytes, sizeof h);
    for (k = image->symbol_count; k != 0 && looked_at < LOOKED_AT; k--) {
        Elf32_Sym s;
        memcpy(&s, image->bytes + image->symbols + (k - 1) * sizeof s, sizeof s);
        if (s.st_value <= at && s.st_value >= nearest + (found != NULL) && is_of_code(image, &h, &s)) {
            looked_at++;
            if ((name = shown_name(image, &s)) != NULL) {
                nearest = s.st_value;
                found = name;
            }
        }
    }
    if (found != NULL) {
        *offset = at - nearest;
    }
    return found;
}

void ncs_elf_functions(const Image *image, NcsTell tell, void *user) {
    const char *name;
    Elf32_Ehdr h;
    size_t k;
    if (image->symbol_count == 0) {
        return; /* code alone has no header */
    }
    memcpy(&h, image->bytes, sizeof h);
    for (k = 0; k < image->symbol_count; k++) {
        Elf32_Sym s;
        memcpy(&s, image->bytes + image->symbols + k * sizeof s, sizeof s);
        if (is_of_code(image, &h, &s) && (name = shown_name(image, &s)) != NULL) {
            tell(user, (NcsAt){s.st_value}, name);
        }
    }
}

void ncs_elf_copy_data(const Image *image, uintptr_t to) {
    size_t k;
    for (k = 0; k < image->segment_count; k++) {
        const NcSegment *s = &image->segments[k];
        if ((s->flags & PF_X) == 0) {
            memcpy((uint8_t *)(to + s->address), image->bytes + s->offset, s->file_len);
        }
    }
}
