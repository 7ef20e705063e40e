/* What compilers name in C++ without having it linked: the program, in calls of __cxa_atexit, and what stands in the tables of abstract
   classes, by a weak name. */

void __cxa_pure_virtual(void);

void *__dso_handle = 0;
__attribute__((used)) static void (*const pure)(void) = __cxa_pure_virtual;
