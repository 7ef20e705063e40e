/* What a configure script chooses for PCRE2: the library for bytes, with Unicode. */
#define SUPPORT_PCRE2_8 1
#define SUPPORT_UNICODE 1
#define HAVE_INTTYPES_H 1
#define HAVE_LIMITS_H 1
#define HAVE_MEMMOVE 1
#define HAVE_STDINT_H 1
#define HAVE_STDLIB_H 1
#define HAVE_STRERROR 1
#define HAVE_STRING_H 1

#include "config.h.generic"
