/* What a configure script chooses for PCRE2 with its JIT. Flags add widths besides that of bytes. */
#define SUPPORT_JIT 1

#include "../pcre2/config.h"
