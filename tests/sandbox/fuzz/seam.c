/* Where the target `calls` meets nc-run: it does what main.c does between the command line and the program's first instruction. */
#include "seam.h"

#include "fuzz.h"
#include "run/run.h"

#include <string.h>
#include <unistd.h>

#define MEMORY_END 0x11F000u /* below the end of the box, as if words of a command line were above */

static Run run;

void seam_begin(NcsModule *module, NcsBox *box, const char *folder, int writable, uint64_t most) {
    memset(&run, 0, sizeof run);
    run.line.folders[0] = (Folder){.host = folder, .host_len = strlen(folder), .writable = writable, .file = -1};
    MUST(files_begin(&run.files) == NULL && view_begin(&run.files.view, run.line.folders, 1) == NULL);
    run.files.left = most;
    run.module = module;
    run.box = box;
    run.memory_end = MEMORY_END;
    things_begin(&run);
    MUST(calls_give(&run));
}

uint32_t seam_memory_end(void) {
    return MEMORY_END;
}

void seam_end(void) {
    const View *view = &run.files.view;
    MUST(close(view->folders[0].file) == 0 && (view->numbers < 0 || close(view->numbers) == 0));
}
