/* A program for nc-run, without a C library: nc-cc -O2 hello.c -o hello.elf && nc-run hello.elf */
#include <nc_run.h>

int start(int argc, char **argv) {
    static const char text[] = "hello, world\n";
    (void)argc;
    (void)argv;
    return nc_write(1, text, sizeof text - 1) != sizeof text - 1;
}
