/* The switches as C++. */
extern "C" {
#include "switches.c"
}
