/* Where a program for nc-run with musl begins: sets musl up, and calls main with the words of the command line. Behind these lies the
   environment. */

#include <stdlib.h>
#include "../setup.h"

int main(int, char **, char **);
extern char *__progname, *__progname_full;

void start(int argc, char **argv) {
    set_up(argc > 0 ? argv + argc + 1 : 0);
    if (argc > 0) {
        __progname = __progname_full = argv[0];
        for (char *at = argv[0]; *at; at++) {
            if (*at == '/') __progname = at + 1;
        }
    }
    exit(main(argc, argv, __environ));
}
