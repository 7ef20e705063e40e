/* Where a program with musl begins: sets musl up, and calls main. */

#include <stdlib.h>
#include "setup.h"

int main(int, char **);

__attribute__((section(".text.start"))) void start(void) {
    static char *arguments[2] = {"program", 0};
    set_up(0);
    exit(main(1, arguments));
}
