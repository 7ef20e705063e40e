"""What tcc's sources need so that `tcc -run` makes code inside the sandbox. nc_run_code.c has what these lines call."""

from editing import Edit

RUN = "tccrun.c"

EDITS = {
    "parts": Edit(RUN, "after", '#include "tcc.h"', '#include "nc_run_code.c"'),
    # What is linked is laid out in bundles. Then it gets room among the code, and the host makes it.
    "layout": Edit(RUN, "after", "build_got_entries", "        nc_lay_out(s1);"),
    "room": Edit(RUN, "before", "offset += -(addr", "            if (nc_has_room(s1, s, mem))\n                continue;"),
    "code": Edit(RUN, "before", "ptr = (void*)s->sh", "        if (nc_is_made(s1, s))\n            continue;"),
    "end": Edit(RUN, "before", "nb_runtime_mem; ++i", "    nc_forget(s1);"),
    # The C library is the box's own, and its headers are in memory.
    "names": Edit(RUN, "before", "build_got_entries", "        nc_resolve(s1);"),
    "libraries": Edit("tccelf.c", "instead", "if (!s1->nostdlib)", "if (s1->output_type != TCC_OUTPUT_MEMORY && !s1->nostdlib)",
                      within="ST_FUNC void tcc_add_runtime("),
    "headers": Edit("libtcc.c", "before", "if (fd < 0)", "    if (fd < 0 && nc_open_header(s1, filename))\n        return 0;",
                    within="ST_FUNC int tcc_open("),
}
