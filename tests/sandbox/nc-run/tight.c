/* Data of 33 KiB at 00110000, so that little room is left above it. */
char filler[33 << 10];
int start(void) {
    return 1 + filler[0] + filler[sizeof filler - 1];
}
