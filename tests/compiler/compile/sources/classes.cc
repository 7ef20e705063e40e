// C++: virtual calls, thunks, pointers to members, templates, lambdas, static objects.

struct Shape {
    int size;
    virtual int area(int scale) { return size + scale; }
    virtual ~Shape() {}
};

struct Named {
    int number;
    virtual int name(int base) { return base; }
};

struct Square : Shape, Named {
    int side;
    int area(int scale) override { return scale * 2; }
    __attribute__((noinline)) int name(int base) override { return base + side; }
};

struct Shared : virtual Shape {
    int area(int scale) override { return scale * 3 + size; }
};

template <class T>
__attribute__((noinline)) T larger(T a, T b) {
    return a < b ? b : a;
}
__attribute__((noinline)) int both(Shape *shape, Named *named) {
    return larger(shape->area(3), named->name(4));
}
__attribute__((noinline)) int by_member(Named *named, int (Named::*member)(int)) {
    return (named->*member)(7);
}
int (Named::*virtual_member)(int) = &Named::name;

int total;
struct Counted {
    Counted(int n) { total += n; }
};
Counted five(5), two(2);

inline __attribute__((noinline)) int remembered(int n) {
    static int kept;
    kept += n;
    return kept;
}

struct Large {
    int numbers[5];
};
__attribute__((noinline)) Large made(int n) {
    return {{n, n + 1, n + 2, n + 3, n + 4}};
}

void operator delete(void *) {}
void operator delete(void *, unsigned) {}

extern "C" int wrong() {
    Square square;
    Shared shared;
    square.side = 4;
    shared.size = 2;
    auto more = [&](int n) { return n + square.side; };
    int failed = both(&square, &square) != 8 || both(&shared, &square) != 11 || by_member(&square, virtual_member) != 11;
    failed += remembered(3) + remembered(4) != 10 || made(7).numbers[3] != 10 || more(9) != 13;
    return failed + (total != 7);
}
