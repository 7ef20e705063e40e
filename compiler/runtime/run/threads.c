/* What C++ calls for the destructor of a thread-local variable. There is one thread, which ends with the program. */

int __cxa_atexit(void (*)(void *), void *, void *);
int __cxa_thread_atexit(void (*)(void *), void *, void *);

int __cxa_thread_atexit(void (*end)(void *), void *object, void *library) { return __cxa_atexit(end, object, library); }
