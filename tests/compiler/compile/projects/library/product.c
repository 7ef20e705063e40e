#include "numbers.h"

unsigned product(const unsigned *numbers, int count) {
    unsigned total = 1;
    for (int at = 0; at < count; at++) total *= numbers[at];
    return total;
}
