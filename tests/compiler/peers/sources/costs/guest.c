/* What the programs of this folder call, in a box and as WebAssembly: nothing, call-backs, and a write to each line of 1 MiB. */
enum { SIZE = 1 << 20, LINE = 64 };
static volatile char big[SIZE];

#ifdef __wasm__
#define EXPORT(name) __attribute__((export_name(#name)))
#define FIRST
#define AND_TOLD
__attribute__((import_module("host"), import_name("told"))) void told(void);
#else
#define EXPORT(name)
#define FIRST __attribute__((section(".text.start")))
#define AND_TOLD , void (*told)(void)
#endif

EXPORT(nothing) FIRST void nothing(void) {}

EXPORT(call_back) void call_back(unsigned count AND_TOLD) {
    for (; count != 0; count--) {
        told();
    }
}

EXPORT(write_all) void write_all(unsigned value) {
    unsigned k;
    for (k = 0; k < SIZE; k += LINE) {
        big[k] = (char)value;
    }
}
