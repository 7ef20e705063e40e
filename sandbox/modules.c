/* Code is judged, put into memory with stops around it, and made executable. TRUSTED, NOT PROVED. [1 to 5, 11, 12, 16 to 19, 28 to 32] */
#include "inner.h"

#include <stdlib.h>
#include <string.h>
#include <sys/mman.h>

#define BUNDLES_IN_PAGE (PAGE / NC_BUNDLE)

/* The region is as small as it can be. The guard is its last bundle, and a segment ends at the end of a page. */
uint32_t ncs_bundles_for(uint32_t bundles) {
    bundles = (bundles / BUNDLES_IN_PAGE + 1) * BUNDLES_IN_PAGE;
    return bundles < NC_MAX_BUNDLES ? bundles : NC_MAX_BUNDLES;
}

/* `mov ecx, k`, and a far jump to the landing page, in 64-bit code. Every other bundle start of the zone is a stop [11, 12]. */
static void lay_trampoline(uint8_t *text, uint32_t k) {
    static const uint16_t selector = HOST_CODE;
    uint8_t *to = text + NC_BUNDLE * k;
    to[0] = 0xB9;
    memcpy(to + 1, &k, 4);
    to[5] = 0xEA;
    memcpy(to + 6, &ncs_landing_at, 4);
    memcpy(to + 10, &selector, 2);
}

void ncs_zone_lay(uint8_t *text) {
    uint32_t k;
    memset(text, NC_STOP, NC_START);
    lay_trampoline(text, OUT_RETURN);
    lay_trampoline(text, OUT_EXIT);
    for (k = OUT_CALLBACK; k < OUT_END; k++) {
        lay_trampoline(text, k);
    }
}

/* Fills the text with stops and the code, if that is accepted. Whether it is. Nobody can enter before the text is sealed, so there are no
   acts, and nothing changes it later, so there is no region and no seat [4, 5, 16, 17, 28 to 32]. */
static int fill_text(const NcsModule *m, NcsRefusal *why) {
    const Image *image = &m->image;
    const uint8_t *code = image->bytes + image->code_offset;
    uint8_t *text = (uint8_t *)(uintptr_t)m->text_at + NC_START;
    NcVerdict judged = nc_host_image(image->code_at, code, image->code_len, text, m->limit - NC_START);
    return judged.fault == NC_OK || ncs_refuse_fault(why, NCS_BAD_CODE, judged.fault, judged.at);
}

/* Memory for the text. Whether there is some. */
static int take_text(NcsModule *m) {
    (void)pthread_mutex_lock(&ncs_lock);
    m->limit = NC_LIMIT(ncs_bundles_for((m->image.code_at + m->image.code_len - NC_START) / NC_BUNDLE));
    m->text_at = ncs_low_new(m->limit, PROT_READ | PROT_WRITE, -1);
    (void)pthread_mutex_unlock(&ncs_lock);
    return m->text_at != 0;
}

/* Makes the text executable, with no writable mapping of it, and gives it a segment. Whether that is done [1, 2, 3, 6, 7]. */
static int seal_text(NcsModule *m) {
    int sealed;
    (void)pthread_mutex_lock(&ncs_lock);
    m->selector = ncs_segment_code(m->text_at, m->limit);
    sealed = m->selector != 0 && ncs_low_seal(m->text_at, m->limit);
    (void)pthread_mutex_unlock(&ncs_lock);
    return sealed;
}

/* Whether the code is accepted, and there. The process is prepared only for code that is accepted. Whoever enters serializes first. */
static int load(NcsModule *m, NcsRefusal *why) {
    int taken = take_text(m);
    if (taken && (!fill_text(m, why) || !ncs_prepare(why))) {
        return 0;
    }
    if (taken) {
        ncs_zone_lay((uint8_t *)(uintptr_t)m->text_at);
    }
    if (!taken || !seal_text(m)) {
        ncs_refuse(why, NCS_NO_MEMORY, "there is no room below 4 GiB for the code, or no segment left");
        if (taken) {
            ncs_unprepare();
        }
        return 0;
    }
    m->life = ncs_life();
    __atomic_add_fetch(&ncs_texts, 1, __ATOMIC_SEQ_CST);
    return 1;
}

NcsModule *ncs_module_new(const void *bytes, size_t len, NcsRefusal *why) {
    NcsModule *m;
    if (!ncs_may_begin(why) || !ncs_mask_is_kept(why)) { /* in such a child nothing of nc_host's may be called [27] */
        return NULL;
    }
    m = calloc(1, sizeof *m);
    if (m == NULL || (m->image.bytes = malloc(len + 1)) == NULL) {
        free(m);
        return ncs_refuse(why, NCS_NO_MEMORY, "out of memory");
    }
    if (len != 0) {
        memcpy(m->image.bytes, bytes, len);
    }
    m->image.len = len;
    m->users = 1;
    return m;
}

NcsModule *ncs_module_elf(const void *file, size_t len, NcsRefusal *why) {
    NcsModule *m = ncs_module_new(file, len, why);
    const char *wrong = m != NULL ? ncs_elf_read(&m->image) : NULL;
    if (wrong != NULL) {
        ncs_refuse(why, NCS_BAD_FILE, wrong);
    }
    if (m == NULL || (wrong == NULL && load(m, why))) {
        return m;
    }
    ncs_module_drop(m);
    return NULL;
}

NcsModule *ncs_module_code(const void *code, size_t len, NcsRefusal *why) {
    NcsModule *m;
    if (len > NC_LIMIT(NC_MAX_BUNDLES)) {
        ncs_refuse_fault(why, NCS_BAD_CODE, NC_OUT_OF_RANGE, 0);
        return NULL;
    }
    m = ncs_module_new(code, len, why);
    if (m == NULL) {
        return NULL;
    }
    m->image.code_at = m->image.entry = NC_START;
    m->image.code_len = (uint32_t)len;
    m->image.data_begin = m->image.data_end = STACK_TOP;
    if (load(m, why)) {
        return m;
    }
    ncs_module_drop(m);
    return NULL;
}

NcsAt ncs_symbol(const NcsModule *m, const char *name) {
    NcsAt at = {ncs_elf_symbol(&m->image, name)};
    return at;
}

NcsAt ncs_entry(const NcsModule *m) {
    NcsAt at = {m->image.entry};
    return at;
}

const char *ncs_function_at(const NcsModule *m, NcsAt at, uint32_t *offset) {
    return ncs_elf_function(&m->image, at.at, offset);
}

void ncs_functions(const NcsModule *m, NcsTell tell, void *user) {
    ncs_elf_functions(&m->image, tell, user);
}

/* The file is only read. If it changes meanwhile, the name may be wrong, but ends. */
const char *ncs_function_in(const void *file, size_t len, NcsAt at, uint32_t *offset) {
    Image image;
    memset(&image, 0, sizeof image);
    image.bytes = (uint8_t *)(uintptr_t)file;
    image.len = len;
    return ncs_elf_read(&image) == NULL ? ncs_elf_function(&image, at.at, offset) : NULL;
}

/* No memory is given back under the lock, which takes time. */
void ncs_module_drop(NcsModule *m) {
    int is_last;
    (void)pthread_mutex_lock(&ncs_lock);
    is_last = --m->users == 0;
    if (is_last) {
        ncs_segment_free(m->selector);
    }
    (void)pthread_mutex_unlock(&ncs_lock);
    if (is_last) {
        ncs_low_free(m->text_at, m->limit);
        ncs_live_free(m);
        free(m->image.bytes);
        free(m);
    }
}

void ncs_module_free(NcsModule *m) {
    if (m != NULL && ncs_module_is_ours(m)) {
        ncs_module_drop(m);
    }
}
