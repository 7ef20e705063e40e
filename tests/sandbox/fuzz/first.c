/* What a target does before the first box of its process. */
#include "first.h"

#include "fuzz.h"
#include "nc_sandbox.h"
#include "testing.h"

#include <string.h>

void first_begin(void) {
    static const NcsLimits limits = {.memory = 0x111000, .depth = 1, .milliseconds = 1000};
    uint8_t stops[32];
    NcsRefusal why;
    NcsModule *module;
    NcsBox *box;
    memset(stops, 0xF4, sizeof stops);
    module = ncs_module_code(stops, sizeof stops, &why);
    if (module == NULL && why.kind == NCS_BAD_SYSTEM) {
        fuzz_skip(why.sentence);
    }
    MUST(module != NULL);
    box = ncs_box_new(module, &limits, NULL);
    MUST(box != NULL);
    if (ncs_call(box, (NcsAt){CODE_AT}, NCS_NO_ARGS).how == NCS_HOST) {
        fuzz_skip("the system has no timer left for a thread");
    }
    MUST(ncs_free(box));
    ncs_module_free(module);
}
