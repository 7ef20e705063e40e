/* What gcc's unwinder reads of gcc's own build: the C library, and what a frame of i386 is. */

#include <stdlib.h>
#include <string.h>

#define gcc_assert(holds) ((void)(!(holds) ? abort(), 0 : 0))
#define gcc_unreachable() abort()
#define ATTRIBUTE_UNUSED __attribute__((unused))
#define HAVE_GETIPINFO 1

#define __LIBGCC_STACK_GROWS_DOWNWARD__ 1
#define __LIBGCC_DWARF_FRAME_REGISTERS__ 17
#define __LIBGCC_EH_RETURN_STACKADJ_RTX__ 1
#define DWARF_REG_TO_UNWIND_COLUMN(number) (number)
