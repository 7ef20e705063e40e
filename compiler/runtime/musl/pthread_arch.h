/* The one thread's block is a variable (setup.h), since no segment register leads to it. It comes before musl's own header of this name. */

extern char only_thread[];
static inline unsigned __get_tp(void) { return (unsigned)only_thread; }

#define MC_PC gregs[REG_EIP]
