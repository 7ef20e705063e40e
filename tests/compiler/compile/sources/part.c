/* One of the other sources. With IN_ARCHIVE it calls back by a pointer, through a tail call. */

#ifdef IN_ARCHIVE
int from_archive(int (*f)(int), int n) {
    return f(2 * f(n) - 1);
}
#else
int from_object(int n) {
    return 2 * n + 2;
}
#endif
