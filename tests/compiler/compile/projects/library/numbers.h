/* A library of two files. */
unsigned sum(const unsigned *numbers, int count);
unsigned product(const unsigned *numbers, int count);
