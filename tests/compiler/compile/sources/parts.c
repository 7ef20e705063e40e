/* The first of several sources: the others come as an object, and in an archive. */

int from_object(int n);
int from_archive(int (*f)(int), int n);

static int add(int n) {
    return n + 1;
}

int wrong(void) {
    return (from_object(20) != 42) + (from_archive(add, 20) != 42);
}
