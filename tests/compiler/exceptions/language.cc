// A program whose functions exceptions leave, in each way that the language has. It prints the same natively and by nc-run.

#include <cstdio>
#include <cstdlib>
#include <cstring>
#include <exception>
#include <functional>
#include <initializer_list>
#include <memory>
#include <new>
#include <typeinfo>

extern "C" void through_c(void (*)(int), int);
extern "C" int cleaned_up;

namespace {

struct Traced {
    const char *name;
    explicit Traced(const char *name) : name(name) { std::printf("+%s ", name); }
    Traced(const Traced &other) : name(other.name) { std::printf("copy-%s ", name); }
    ~Traced() { std::printf("-%s ", name); }
};

struct Base {
    int number;
    explicit Base(int number) : number(number) {}
    virtual ~Base() = default;
    virtual const char *name() const { return "Base"; }
};

struct Left : virtual Base {
    explicit Left(int number) : Base(number) {}
};

struct Right : virtual Base {
    explicit Right(int number) : Base(number) {}
    const char *name() const override { return "Right"; }
};

struct Both : Left, Right {
    explicit Both(int number) : Base(number), Left(number), Right(number) {}
    const char *name() const override { return "Both"; }
};

struct Failure : std::exception {
    const char *what() const noexcept override { return "a failure"; }
};

struct Later {
    virtual ~Later() = default;
};

[[gnu::noinline]] int inner(int number) {
    Traced traced("inner");
    switch (number) {
    case 1: throw 1;
    case 2: throw 2L;
    case 3: throw "three";
    case 4: throw Both(4);
    case 5: throw Failure();
    case 6: throw Traced("thrown");
    case 7: throw 7.5;
    case 8: throw 8LL << 40;
    default: return number;
    }
}

[[gnu::noinline]] int middle(int number) {
    Traced traced("middle");
    return inner(number) + 1;
}

[[gnu::noinline]] int outer(int number) {
    Traced traced("outer");
    return 2 * middle(number) + number;
}

void frames() {
    for (int number = 0; number < 10; number++) {
        try {
            std::printf("%d\n", outer(number));
        } catch (int what) {
            std::printf("int %d\n", what);
        } catch (long what) {
            std::printf("long %ld\n", what);
        } catch (const char *what) {
            std::printf("text %s\n", what);
        } catch (const Base &what) {
            std::printf("%s %d\n", what.name(), what.number);
        } catch (const std::exception &what) {
            std::printf("%s\n", what.what());
        } catch (double what) {
            std::printf("double %g\n", what);
        } catch (...) {
            std::printf("something\n");
        }
    }
}

void bases() {
    try {
        throw new Both(3);
    } catch (Base *what) {
        std::printf("pointer to %s %d\n", what->name(), what->number);
        delete what;
    }
    try {
        throw Both(5);
    } catch (Right what) {
        std::printf("copy %s %d\n", what.name(), what.number);
    }
    try {
        throw static_cast<int *>(nullptr);
    } catch (const void *what) {
        std::printf("null %d\n", what == nullptr);
    }
    try {
        throw &Base::number;
    } catch (int Base::*what) {
        std::printf("member %d\n", Base(9).*what);
    }
}

[[gnu::noinline]] void rethrow(int depth) {
    Traced traced("again");
    try {
        if (depth == 0) throw Failure();
        rethrow(depth - 1);
    } catch (std::exception &what) {
        std::printf("%d:%s ", depth, what.what());
        throw;
    }
}

void rethrown() {
    try {
        rethrow(3);
    } catch (...) {
        std::printf("caught\n");
    }
}

void nested() {
    try {
        try {
            Traced traced("first");
            throw 1;
        } catch (int) {
            Traced traced("second");
            try {
                throw 2;
            } catch (int what) {
                std::printf("in a handler: %d, %d uncaught\n", what, std::uncaught_exceptions());
            }
            throw "out of a handler";
        }
    } catch (const char *what) {
        std::printf("%s\n", what);
    }
    try {
        try {
            throw Failure();
        } catch (...) {
            std::throw_with_nested(Later());
        }
    } catch (const Later &what) {
        try {
            std::rethrow_if_nested(what);
        } catch (const Failure &cause) {
            std::printf("later because of %s\n", cause.what());
        }
    }
}

struct Unwinding {
    ~Unwinding() {
        try {
            throw 3;
        } catch (int what) {
            std::printf("in a destructor: %d, %d uncaught\n", what, std::uncaught_exceptions());
        }
    }
};

void destructors() {
    try {
        Unwinding unwinding;
        throw 4;
    } catch (int what) {
        std::printf("%d\n", what);
    }
}

void pointers() {
    std::exception_ptr kept;
    try {
        throw Both(6);
    } catch (...) {
        kept = std::current_exception();
    }
    for (int round = 0; round < 3; round++) {
        try {
            std::rethrow_exception(kept);
        } catch (const Base &what) {
            std::printf("%d: %s %d\n", round, what.name(), what.number);
        }
    }
    const std::exception_ptr made = std::make_exception_ptr(Failure());
    std::printf("%d %d %d\n", made == kept, made != nullptr, std::current_exception() == nullptr);
}

struct Members {
    Traced first{"first"};
    Traced second;
    explicit Members(int number) try : second(number > 1 ? throw number : "second") {
        if (number == 1) throw Failure();
    } catch (int what) {
        std::printf("of a member %d ", what);
    } catch (const Failure &what) {
        std::printf("of the body %s ", what.what());
    }
};

int tried(int number) try { return inner(number); } catch (int what) {
    return 100 + what;
}

void tries() {
    for (int number = 0; number < 3; number++) {
        try {
            Members members(number);
            std::printf("made ");
        } catch (int what) {
            std::printf("int %d", what);
        } catch (const Failure &) {
            std::printf("Failure");
        }
        std::printf("\n");
    }
    std::printf("%d %d\n", tried(0), tried(1));
}

struct Counted {
    static int alive, made, limit;
    Counted() {
        if (made == limit) throw made;
        made++;
        alive++;
    }
    ~Counted() { alive--; }
};
int Counted::alive = 0, Counted::made = 0, Counted::limit = 5;

struct Derived : Base {
    Counted counted[4];
    Derived() : Base(1) {}
};

void constructors() {
    for (int limit : {5, 7, 12}) {
        Counted::made = 0;
        Counted::limit = limit;
        try {
            Derived *const one = new Derived;
            Counted *const several = new Counted[6];
            std::printf("all made, %d alive\n", Counted::alive);
            delete[] several;
            delete one;
        } catch (int what) {
            std::printf("at %d ", what);
        }
        std::printf("%d alive\n", Counted::alive);
        Counted::alive = 0;
    }
}

void throws_from(int number) {
    Traced traced("called back");
    if (number) throw number;
}

void callbacks() {
    for (int number = 0; number < 3; number++) {
        try {
            through_c(throws_from, number);
        } catch (int what) {
            std::printf("int %d", what);
        }
        std::printf(" cleaned up %d\n", cleaned_up);
    }
    const std::function<int(int)> function = [](int number) { return outer(number); };
    try {
        function(1);
    } catch (int what) {
        std::printf("by a function %d\n", what);
    }
    try {
        std::function<void()>()();
    } catch (const std::bad_function_call &) {
        std::printf("no function\n");
    }
}

struct Large {
    int words[20];
};

[[gnu::noinline]] Large large(int number) {
    Traced traced("large");
    if (number == 3) throw number;
    Large made{};
    made.words[number] = number;
    return made;
}

[[gnu::noinline, gnu::regparm(3)]] int by_registers(int a, int b, int c) {
    if (a + b + c > 8) throw a * 100 + b * 10 + c;
    return a - b - c;
}

[[gnu::noinline]] int on_stack(int number) {
    char *const room = static_cast<char *>(__builtin_alloca(number * 16));
    std::memset(room, number, number * 16);
    alignas(64) volatile int aligned = number;
    if (room[number] > 4) throw aligned;
    return room[0] + aligned;
}

void conventions() {
    for (int number = 1; number < 6; number++) {
        const int a = number * 3, b = number * 5;
        try {
            std::printf("%d ", large(number).words[number]);
        } catch (int what) {
            std::printf("large %d, kept %d %d ", what, a, b);
        }
        try {
            std::printf("%d ", by_registers(number, 2, 3));
        } catch (int what) {
            std::printf("registers %d, kept %d %d ", what, a, b);
        }
        try {
            std::printf("%d\n", on_stack(number));
        } catch (int what) {
            std::printf("stack %d, kept %d %d\n", what, a, b);
        }
    }
}

// Each case throws or doesn't come back, so that the table of the switch may use registers that no case needs.
[[gnu::noinline]] void leaves(int number, const char *text) {
    switch (number) {
    case 0: throw number;
    case 1: throw text;
    case 2: throw Failure();
    case 3: throw text[0];
    case 4: throw text + 1;
    case 5: throw &text;
    case 6: rethrow(number);
    default: std::abort();
    }
}

[[gnu::noinline]] long keeps(long a, long b, long c, long d) {
    for (int number = 0; number < 7; number++) {
        try {
            leaves(number, "text");
        } catch (...) {
            a += b;
            b ^= c << 1;
            c -= d * number;
            d += a;
        }
    }
    return a ^ b ^ c ^ d;
}

void registers() {
    std::printf("%ld %ld\n", keeps(1, 2, 3, 4), keeps(50, 60, 70, 80));
}

[[gnu::noinline]] int deep(int depth) {
    Counted counted;
    if (depth == 0) throw depth;
    return deep(depth - 1) + 1;
}

void many() {
    int caught = 0;
    for (int round = 0; round < 2000; round++) {
        Counted::made = 0;
        Counted::limit = 1000;
        try {
            caught += deep(round % 50);
        } catch (int) {
            caught++;
        }
    }
    try {
        Counted::made = 0;
        Counted::limit = 5000;
        deep(4000);
    } catch (int what) {
        std::printf("%d %d %d\n", caught, what, Counted::alive);
    }
}

void casts() {
    Both both(1);
    Base *const base = &both;
    std::printf("%d ", dynamic_cast<Left *>(base) == static_cast<Left *>(&both));
    const std::unique_ptr<Base> alone(new Base(2));
    std::printf("%d ", dynamic_cast<Left *>(alone.get()) == nullptr);
    try {
        std::printf("%d", dynamic_cast<Right &>(*alone).number);
    } catch (const std::bad_cast &what) {
        std::printf("%s ", what.what());
    }
    try {
        Base *volatile none = nullptr;
        std::printf("%s", typeid(*none).name());
    } catch (const std::bad_typeid &what) {
        std::printf("%s\n", what.what());
    }
}

void memory() {
    volatile std::size_t most = static_cast<std::size_t>(-1) - 4096;
    try {
        std::printf("%p", ::operator new(most));
    } catch (const std::bad_alloc &what) {
        std::printf("%s ", what.what());
    }
    try {
        std::printf("%p", static_cast<void *>(new Large[most]));
    } catch (const std::bad_array_new_length &what) {
        std::printf("%s ", what.what());
    }
    std::printf("%d\n", ::operator new(most, std::nothrow) == nullptr);
}

int once(bool throws) {
    if (throws) throw 1;
    return 5;
}

[[gnu::noinline]] int first_time(bool throws) {
    static int value = once(throws);
    return value;
}

int at_start = [] {
    try {
        return once(true);
    } catch (int what) {
        return what + 10;
    }
}();

void statics() {
    for (bool throws : {true, true, false, true}) {
        try {
            std::printf("%d ", first_time(throws));
        } catch (int) {
            std::printf("thrown ");
        }
    }
    std::printf("%d\n", at_start);
}

void jumps() {
    int number = 0;
again:
    try {
        Traced traced("left");
        if (number++ < 2) goto again;
        for (;;) {
            Traced also("broken off");
            if (number > 2) break;
        }
        throw number;
    } catch (int what) {
        std::printf("%d ", what);
        if (number < 5) goto again;
    }
    std::printf("\n");
}

void quiet() noexcept {
    outer(1);
}

struct Loud {
    ~Loud() noexcept(false) { throw 1; }
};

void loud() {
    Loud loud;
    throw 2;
}

void in_handler() {
    std::set_terminate([] {
        try {
            std::rethrow_exception(std::current_exception());
        } catch (int what) {
            std::printf("ends with %d\n", what);
        }
        std::exit(3);
    });
    throw 5;
}

void uncaught() {
    outer(1);
}
void uncaught_failure() {
    throw Failure();
}
void nothing_to_throw() {
    throw;
}

const struct {
    const char *name;
    void (*function)();
} CASES[] = {{"frames", frames},
             {"bases", bases},
             {"rethrown", rethrown},
             {"nested", nested},
             {"destructors", destructors},
             {"pointers", pointers},
             {"tries", tries},
             {"constructors", constructors},
             {"callbacks", callbacks},
             {"conventions", conventions},
             {"registers", registers},
             {"many", many},
             {"casts", casts},
             {"memory", memory},
             {"statics", statics},
             {"jumps", jumps},
             {"quiet", quiet},
             {"loud", loud},
             {"in_handler", in_handler},
             {"uncaught", uncaught},
             {"uncaught_failure", uncaught_failure},
             {"nothing_to_throw", nothing_to_throw}};

} // namespace

int main(int argc, char **argv) {
    for (const auto &each : CASES) {
        if (argc > 1 && std::strcmp(each.name, argv[1]) == 0) {
            each.function();
            return 0;
        }
    }
    return 2;
}
