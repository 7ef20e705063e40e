/* Functions that stand in for others. tests/sandbox/boxes has the linker lead all calls of the library from those to these. */
#ifndef WRAPPING_H
#define WRAPPING_H

/* Begins the definition of what stands in for a function. The function itself is then called by __real_ before its name. */
/* clang-format off */
#define REAL(result, name, ...) result __real_##name(__VA_ARGS__); result __wrap_##name(__VA_ARGS__); result __wrap_##name(__VA_ARGS__)
/* clang-format on */

#endif
