/* Run-time types, constructors before main and destructors after it, and what of the C++ library is for threads. The words choose. */

#include <any>
#include <condition_variable>
#include <cstdio>
#include <cstdlib>
#include <cstring>
#include <functional>
#include <future>
#include <iostream>
#include <map>
#include <mutex>
#include <optional>
#include <shared_mutex>
#include <stdexcept>
#include <thread>
#include <tuple>
#include <typeindex>
#include <typeinfo>
#include <variant>
#include <vector>

/* By stdio: what the first ones do is before <iostream> is set up. */
struct Noted {
    const char *name;
    explicit Noted(const char *given) : name(given) { std::printf("begins %s\n", name); }
    ~Noted() { std::printf("ends %s\n", name); }
};

static Noted plain("plain");
__attribute__((init_priority(2000))) static Noted late("2000");
__attribute__((init_priority(1000))) static Noted early("1000");
static std::map<std::string, int> made_before_main{{"one", 1}, {"two", 2}};

struct Base {
    virtual ~Base() = default;
    virtual const char *name() const { return "Base"; }
};
struct Left : virtual Base {
    const char *name() const override { return "Left"; }
    int left = 1;
};
struct Right : virtual Base {
    int right = 2;
};
struct Both : Left, Right {
    const char *name() const override { return "Both"; }
};
struct Other {
    virtual ~Other() = default;
};
struct Joined : Other, Both {};
class Hidden : private Other {
  public:
    Other *inner() { return this; }
};

static void types() {
    Joined joined;
    Base *base = &joined;
    Other *other = dynamic_cast<Other *>(base);
    std::cout << base->name() << ' ' << (other == &joined) << (dynamic_cast<Right *>(base)->right) << (dynamic_cast<Left *>(other)->left)
              << (dynamic_cast<void *>(base) == &joined) << '\n';
    Hidden hidden;
    std::cout << (dynamic_cast<Hidden *>(hidden.inner()) == nullptr) << (dynamic_cast<Both *>(hidden.inner()) == nullptr) << '\n';
    std::cout << typeid(*base).name() << ' ' << typeid(std::vector<int (*)(Base &)>).name() << ' ' << (typeid(*base) == typeid(Joined))
              << (typeid(int) == typeid(const int)) << typeid(Base).before(typeid(Both)) << '\n';
    std::map<std::type_index, const char *> names{{typeid(int), "int"}, {typeid(Base), "Base"}};
    std::cout << names[typeid(Base)] << '\n';
    std::any any = std::string("held");
    std::cout << std::any_cast<std::string>(any) << ' ' << (std::any_cast<int>(&any) == nullptr) << ' ' << any.type().name() << '\n';
    std::variant<int, std::string> either = "text";
    std::cout << std::visit([](const auto &value) { return sizeof value > 4; }, either) << either.index() << '\n';
    std::optional<int> maybe;
    std::function<int(int)> twice = [](int i) { return 2 * i; };
    std::cout << maybe.value_or(3) << twice(4) << twice.target_type().name() << '\n';
}

static Noted &local() {
    static Noted once("local");
    return once;
}

static void locks() {
    std::mutex mutex;
    std::recursive_mutex twice;
    std::shared_mutex shared;
    std::timed_mutex timed;
    std::condition_variable waiting;
    const std::scoped_lock both(mutex, twice);
    const std::lock_guard again(twice);
    const std::shared_lock one(shared), two(shared);
    waiting.notify_all();
    std::cout << mutex.try_lock() << twice.try_lock() << shared.try_lock() << timed.try_lock() << '\n';
    std::once_flag flag;
    for (int i = 0; i < 3; i++) {
        std::call_once(flag, [] { std::cout << "once\n"; });
    }
    std::promise<int> promise;
    std::future<int> future = promise.get_future();
    promise.set_value(7);
    std::cout << future.get() << '\n';
    std::cout << std::async(std::launch::deferred, [] { return 8; }).get() << (std::this_thread::get_id() == std::thread::id()) << '\n';
}

static int starts_thread() {
    std::thread([] { std::cout << "in a thread\n"; }).join();
    return 0;
}

struct Abstract {
    Abstract() { call(); }
    virtual ~Abstract() = default;
    void call() { act(); }
    virtual void act() = 0;
};
struct Concrete : Abstract {
    void act() override {}
};

static int act(const char *what) {
    if (!strcmp(what, "types")) types();
    if (!strcmp(what, "locks")) locks();
    if (!strcmp(what, "exits")) local(), std::exit(3);
    if (!strcmp(what, "leaves")) std::quick_exit(4);
    if (!strcmp(what, "terminates")) std::terminate();
    if (!strcmp(what, "pure")) Concrete();
    if (!strcmp(what, "thread")) return starts_thread();
    if (!strcmp(what, "astray")) return made_before_main.at("three");
    if (!strcmp(what, "cast")) return dynamic_cast<Both &>(*new Base).left;
    if (!strcmp(what, "value")) return std::optional<int>().value();
    if (!strcmp(what, "number")) return std::stoi("none");
    if (!strcmp(what, "length")) std::string().resize(-5);
    if (!strcmp(what, "memory")) return new (std::nothrow) char[0x7ffffff0] != nullptr || new char[0x7ffffff0] != nullptr;
    return 0;
}

int main(int argc, char **argv) {
    local();
    std::cout << made_before_main["two"] << std::endl;
    for (int i = 1; i < argc; i++) {
        const int status = act(argv[i]);
        if (status) return status;
    }
}
