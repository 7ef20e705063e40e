/* Unpacker::open(FILE) and Unpacker::unpack(TEXT) for Perl, without xsubpp. host.pl says how they are built. */
#define PERL_NO_GET_CONTEXT
#include <EXTERN.h>
#include <perl.h>
#include <XSUB.h>

#include "../unpacker.h"

static Unpacker *unpacker;

/* croak leaves by longjmp, so it is called when the call of the box has ended. A call-back couldn't call it. */
static XS(open_file) {
    dXSARGS;
    const char *why = "a path is wanted";
    unpacker = items == 1 ? unpacker_new(SvPV_nolen(ST(0)), &why) : NULL;
    if (unpacker == NULL) {
        Perl_croak(aTHX_ "%s\n", why);
    }
    XSRETURN_EMPTY;
}

static XS(unpack) {
    dXSARGS;
    char text[UNPACKED_MAX + 1];
    const char *wrong = "a file and a text are wanted";
    if (items == 1 && unpacker != NULL) {
        wrong = unpacker_unpack(unpacker, SvPV_nolen(ST(0)), text);
    }
    if (wrong != NULL) {
        Perl_croak(aTHX_ "%s\n", wrong);
    }
    XSRETURN_PV(text);
}

XS_EXTERNAL(boot_Unpacker) {
    dXSARGS;
    PERL_UNUSED_VAR(items);
    (void)newXS("Unpacker::open", open_file, __FILE__);
    (void)newXS("Unpacker::unpack", unpack, __FILE__);
    XSRETURN_EMPTY;
}
