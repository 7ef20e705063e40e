#include <stdio.h>

int main(void) {
    return printf("hello, %s\n", "world") < 0;
}
