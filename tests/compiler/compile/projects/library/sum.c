#include "numbers.h"

unsigned sum(const unsigned *numbers, int count) {
    unsigned total = 0;
    for (int at = 0; at < count; at++) total += numbers[at];
    return total;
}
