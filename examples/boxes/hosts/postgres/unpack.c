/* A function for PostgreSQL: unpack(text) returns text. host.sh says how it is built. */
#include "postgres.h"

#include "fmgr.h"
#include "utils/builtins.h"
#include "utils/guc.h"

#include "../unpacker.h"

PG_MODULE_MAGIC;
PG_FUNCTION_INFO_V1(unpack);

static char *file;

/* With shared_preload_libraries the postmaster makes this call. So no module is made here, since a backend couldn't use it. */
void _PG_init(void) {
    DefineCustomStringVariable("unpacker.file", "The ELF file of the unpacker.", NULL, &file, "", PGC_SUSET, 0, NULL, NULL, NULL);
}

/* The error leaves by longjmp, so it is raised when the call of the box has ended. A call-back couldn't raise it. */
Datum unpack(PG_FUNCTION_ARGS) {
    static Unpacker *unpacker;
    const char *packed = text_to_cstring(PG_GETARG_TEXT_PP(0)), *wrong = NULL;
    char text[UNPACKED_MAX + 1];
    if (unpacker == NULL) {
        unpacker = unpacker_new(file, &wrong);
    }
    if (unpacker != NULL) {
        wrong = unpacker_unpack(unpacker, packed, text);
    }
    if (wrong != NULL) {
        ereport(ERROR, (errcode(ERRCODE_INVALID_PARAMETER_VALUE), errmsg("unpack: %s", wrong)));
    }
    PG_RETURN_TEXT_P(cstring_to_text(text));
}
