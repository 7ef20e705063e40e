/* The header of PCRE2 as its sources bring it for systems without a configure script. */
#include "pcre2.h.generic"
