/* The configuration of the system's C++ library, for a C library that isn't glibc, and without objects of the library. It comes before the
   system's own header of this name. */

#define __GLIBC_PREREQ(major, minor) 0
#define __locale_t locale_t

#include_next <bits/c++config.h>

/* Strings are instantiated where they are used. */
#undef _GLIBCXX_EXTERN_TEMPLATE
#define _GLIBCXX_EXTERN_TEMPLATE 0
