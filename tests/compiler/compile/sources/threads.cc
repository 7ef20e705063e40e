/* Thread-local variables in C++: with constructors, which run at the first use, in a function, in a class and in a template. */

static int made, at_the_end;

struct Number {
    int n;
    explicit Number(int value) : n(value) { made++; }
    ~Number() { made--; }
};

extern thread_local int elsewhere;
thread_local Number own(4);
static thread_local int later = own.n * 3;
struct Class {
    static thread_local int zero;
    static thread_local Number number;
};
thread_local int Class::zero;
thread_local Number Class::number(6);
template <class T>
struct Of {
    static thread_local T value;
};
template <class T>
thread_local T Of<T>::value = sizeof(T);

extern "C" int __cxa_thread_atexit(void (*)(void *), void *, void *) {
    return at_the_end++, 0;
}
extern "C" {
void *__dso_handle;
}

__attribute__((noinline)) static int next(int first) {
    thread_local Number local(first);
    return local.n++;
}

extern "C" int wrong() {
    int slips = made != 0;
    slips += (own.n != 4) + (later != 12) + (Class::number.n != 6) + (elsewhere != 30) + (Of<short>::value != 2) + (Of<char>::value != 1);
    Class::zero++;
    Of<char>::value++;
    slips += (Class::zero != 1) + (Of<char>::value != 2);
    slips += next(20) != 20;
    slips += next(30) != 21;
    return slips + (made != 3) + (at_the_end == 0);
}
