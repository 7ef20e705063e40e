// Tests of nc_sandbox.hpp: wrapper_test GUEST, on a module of sandbox/tests/guest.c. What failed is printed with its line.
// tests/sandbox/box-bindings compiles and runs them.
#include "checks.hpp"

#include <csignal>
#include <cstring>
#include <functional>
#include <stdexcept>
#include <sys/wait.h>
#include <thread>
#include <unistd.h>

namespace {

constexpr ncs::Limits LIMITS = {0x120000, 8, 10000}, BRIEF = {0x120000, 8, 30};

ncs::Module guest;

static_assert(std::is_nothrow_move_constructible_v<ncs::Module> && std::is_nothrow_move_assignable_v<ncs::Module>);
static_assert(std::is_nothrow_move_constructible_v<ncs::Box> && std::is_nothrow_move_assignable_v<ncs::Box>);
static_assert(!std::is_copy_constructible_v<ncs::Module> && !std::is_copy_assignable_v<ncs::Module>);
static_assert(!std::is_copy_constructible_v<ncs::Box> && !std::is_copy_assignable_v<ncs::Box>);
static_assert(!std::is_move_constructible_v<ncs::Caller> && !std::is_move_constructible_v<ncs::Access>);
static_assert(std::is_copy_constructible_v<ncs::Killer> && sizeof(ncs::At) == sizeof(NcsAt));
static_assert(!std::is_move_constructible_v<ncs::HeldSignals> && !std::is_move_assignable_v<ncs::HeldSignals>);

// Untrusted values convert to nothing and cost nothing.
using ncs::Untrusted;
static_assert(sizeof(Untrusted<char>) == 1 && sizeof(Untrusted<long long>) == 8 && std::is_trivially_copyable_v<Untrusted<int>>);
static_assert(!std::is_constructible_v<int, Untrusted<int>> && !std::is_constructible_v<bool, Untrusted<bool>>);
static_assert(!std::is_convertible_v<int, Untrusted<int>> && !std::is_convertible_v<Untrusted<unsigned>, ncs::At>);

// Checks of them, on both sides of each bound. Bounds of other types are the numbers that they are.
constexpr Untrusted<unsigned> ZERO(0), FIVE(5), LAST(0xFFFFFFFF);
constexpr Untrusted<int> MINUS(-1);
static_assert(FIVE.checked([](unsigned n) { return n == 5; }) == 5u && !FIVE.checked([](unsigned n) { return n != 5; }));
static_assert(FIVE.at_most(5) == 5u && !FIVE.at_most(4) && ZERO.at_most(0) == 0u && !ZERO.at_most(-1));
static_assert(LAST.at_most(0x100000000) == 0xFFFFFFFF && !LAST.at_most(0xFFFFFFFE) && !LAST.at_most(-1));
static_assert(FIVE.below(6) == 5u && !FIVE.below(5) && !ZERO.below(0) && !ZERO.below(-1) && LAST.below(0x100000000) == 0xFFFFFFFF);
static_assert(FIVE.in(5, 5) == 5u && !FIVE.in(6, 9) && !FIVE.in(1, 4) && FIVE.in(-1, 9ull) == 5u && !LAST.in(-1, 5));
static_assert(MINUS.in(-1, 5u) == -1 && !MINUS.in(0, 5) && !MINUS.in(0u, 0xFFFFFFFF) && !MINUS.in(-5, -2));
static_assert(Untrusted<signed char>(-128).in(-128ll, 0) == -128 && !Untrusted<signed char>(-128).in(-127, 0));
static_assert(FIVE.is(5) && !FIVE.is(4) && !FIVE.is(6) && MINUS.is(-1) && !MINUS.is(0xFFFFFFFF) && !LAST.is(-1));
static_assert(FIVE.unchecked() == 5 && Untrusted<bool>(true).unchecked() && ncs::At(FIVE) == ncs::At(5) && ncs::At(5).number().is(5));

ncs::Box new_box(const ncs::Limits &limits = LIMITS) {
    auto made = ncs::Box::make(guest, limits);
    CHECK(made.ok());
    return std::move(made).value();
}

ncs::At at(const char *name) {
    return guest.symbol(name);
}

void calls() {
    ncs::Box box = new_box();
    const auto sum = box.call(at("add"), 2, 3u);
    CHECK(sum && sum.result<int>().is(5) && sum.how() == NCS_RETURNED && std::strcmp(sum.name(), "returned") == 0);
    CHECK(box.call(at("add"), -7, 3).result<int>().is(-4));
    CHECK(box.call(at("add"), static_cast<signed char>(-1), true).result<bool>().is(false));
    CHECK(box.call(at("wide"), 0x0123456789ABCDEFull).result<unsigned long long>().is(0x0123456789ABCDEFull));
    CHECK(box.call(at("wide"), -2ll).result<long long>().is(-2));
    CHECK(box.call(at("ninth"), 1, 2, 3, 4, 5, 6, 7, 8, at("add")).result<ncs::At>() == at("add"));
    CHECK(box.call(at("nothing"), 1).how() == NCS_BAD_ENTRY && box.call(at("count")).result<int>().is(41));
    const auto left = box.call(at("leave"), 9);
    CHECK(!left && left.how() == NCS_EXITED && left.status().is(9) && left.place() == ncs::At(NCS_EXIT));
    CHECK(box.call(at("count")).how() == NCS_DEAD && box.reset() && box.call(at("count")).result<int>().is(41));
    const auto touched = box.call(at("touch"), 0x1234);
    CHECK(touched.how() == NCS_FAULTED && touched.trap() == 14 && touched.data() == ncs::At(0x1234) && touched.result<int>().is(0));
}

void memory() {
    ncs::Box box = new_box();
    std::uint8_t six[6];
    CHECK(*box.text(at("greeting"), 100) == "good morning" && *box.text(at("greeting"), 4) == "good");
    CHECK(box.text(at("greeting"), 0)->empty());
    CHECK(!box.text(ncs::At(), 4) && !box.text(ncs::At(LIMITS.memory), 4));
    CHECK(box.get(six, at("buffer")) && std::memcmp(six, "first", 6) == 0);
    CHECK(!box.get(six, ncs::At(LIMITS.memory - 5)) && !box.set(ncs::At(LIMITS.memory - 5), six) && !box.set(ncs::At(), "x"));
    CHECK(box.set(at("buffer"), "other") && *box.text(at("buffer"), 9) == "other");
    auto range = box.bytes(at("buffer"), 6);
    range[0] = 'e';
    CHECK(range.size() == 6 && *box.text(at("buffer") + 1, 9) == "ther" && *box.text(at("buffer"), 1) == "e");
    CHECK(box.bytes(ncs::At(LIMITS.memory), 1).empty() && box.bytes(at("buffer"), std::size_t(1) << 32).empty());
    const std::vector<std::uint8_t> threes(256, 3);
    ncs::At in = box.put(threes);
    CHECK(in && in != box.put(threes) && box.call(at("sum"), in, 256u).result<std::uint32_t>().is(768));
    CHECK(box.take(1) && !box.take(LIMITS.memory) && !box.take(std::size_t(1) << 32));
}

// A structure as the code in the box has it.
struct Header {
    std::uint32_t kind;
    std::uint16_t len;
    std::uint8_t tag[2];
};

// The buffer begins with "first", then it has zeros.
void words_of_memory() {
    ncs::Box box = new_box();
    const ncs::At buffer = at("buffer"), last(LIMITS.memory - 4);
    CHECK(box.get<char>(buffer)->is('f') && box.get<unsigned short>(buffer + 1)->is(0x7269) && box.get<unsigned>(buffer)->is(0x73726966));
    CHECK(box.get<unsigned long long>(buffer)->is(0x7473726966) && box.get<ncs::At>(buffer) == ncs::At(0x73726966));
    CHECK(box.get<bool>(buffer)->is(true) && box.get<bool>(buffer + 5)->is(false) && box.get<Untrusted<int>>(buffer + 4)->is('t'));
    CHECK(box.set(buffer + 8, "\xFE\xFF") && box.get<signed char>(buffer + 8)->is(-2) && box.get<short>(buffer + 8)->is(-2));
    CHECK(box.get<int>(buffer + 8)->is(0xFFFE));
    auto header = box.get<Header>(buffer);
    CHECK(header && header->checked([](const Header &h) { return h.kind == 0x73726966 && h.len == 0x74 && h.tag[1] == 0; }));
    CHECK(!header->checked([](Header h) { return h.len > 0x74; }) && header->unchecked().len == 0x74);
    CHECK(box.get<int>(last) && !box.get<int>(last + 1) && !box.get<char>(last + 4));
    CHECK(box.get<Header>(ncs::At(LIMITS.memory - 8)) && !box.get<Header>(last));
}

unsigned twice(Untrusted<unsigned> n) noexcept {
    return 2 * n.unchecked();
}

void callbacks() {
    ncs::Box box = new_box();
    unsigned all = 0;
    auto owned = std::make_unique<unsigned>(100); // nobody can copy what the lambda has
    ncs::At logs = box.callback([&all, owned = std::move(owned)](ncs::Caller &caller, Untrusted<unsigned> n) mutable {
        all += n.unchecked();
        *owned += 1;
        return caller.call(at("add"), n, *owned).result<unsigned>();
    });
    CHECK(logs == ncs::At(NCS_CALLBACK(0)) && box.call(at("logged"), 5).result<unsigned>().is(5 + 101 + 1));
    CHECK(box.call(at("each"), 3, logs).result<unsigned>().is(3 + 2 + 1 + 102 + 103 + 104) && all == 5 + 6);
    CHECK(box.call(at("each"), 3, box.callback(twice)).result<unsigned>().is(12));
    CHECK(box.call(at("each"), 3, box.callback(std::function<unsigned(Untrusted<unsigned>)>(twice))).result<unsigned>().is(12));
    CHECK(box.call(at("each"), 3, box.callback([] {})).result<unsigned>().is(0));
    CHECK(box.call(at("each"), 1, box.callback([](Untrusted<signed char> c) { return c; })).result<int>().is(1));
    unsigned long long seen = 0;
    ncs::At wide = box.callback([&](Untrusted<unsigned long long> first, ncs::At second) {
        seen = first.unchecked() + second.number().unchecked();
        return -1ll;
    });
    CHECK(box.call(wide, 1).how() == NCS_BAD_ENTRY && box.call(at("each"), 1, wide).result<int>().is(-1) && seen != 0);
    auto held = std::make_shared<int>(5);
    unsigned given = 6;
    for (; box.callback([held] { return *held; }); given++) {}
    CHECK(given == NCS_CALLBACKS && held.use_count() == 1 + NCS_CALLBACKS - 6);
}

// Code that passes on, as it is, what the first call-back returns.
ncs::Module passing() {
    std::uint8_t code[2 * NC_BUNDLE];
    std::memset(code, 0x90, sizeof code);
    std::memcpy(code + NC_BUNDLE - 5, "\xE8\xE0\x00\xFF\xFF\x59\x83\xE1\xE0\xFF\xE1", 11); // call 0x100; pop ecx; and ecx, -32; jmp ecx
    auto made = ncs::Module::code(code);
    CHECK(made.ok());
    return std::move(made).value();
}

void results_of_callbacks() {
    const ncs::Module module = passing();
    auto box = ncs::Box::make(module, LIMITS);
    long long result = -2;
    CHECK(box && box->callback([&] { return result; }));
    CHECK(box->call(ncs::At(0x10000)).result<long long>().is(-2));
    result = 0x123456789ABCDE00;
    const auto end = box->call(ncs::At(0x10000));
    CHECK(end.result<long long>().is(result) && end.result<unsigned>().is(0x9ABCDE00) && end.result<ncs::At>() == ncs::At(0x9ABCDE00));
    CHECK(end.result<bool>().is(false) && end.result<short>().is(-0x2200) && end.result<unsigned char>().is(0));
}

// A call-back that is called while it is under way.
void within_itself() {
    ncs::Box box = new_box();
    unsigned deepest = 0;
    ncs::At f = box.callback([&](ncs::Caller &caller, Untrusted<unsigned> given) {
        const unsigned n = given.unchecked();
        deepest = n > deepest ? n : deepest;
        return n < 3 ? caller.call(at("logged"), n + 1).result<unsigned>() : given;
    });
    CHECK(f && box.call(at("logged"), 0).result<unsigned>().is(3 + 4) && deepest == 3);
    CHECK(box.callback([](ncs::Caller &caller) { caller.deny(); }) == ncs::At(NCS_CALLBACK(1)));
    const auto denied = box.call(at("each"), 3, ncs::At(NCS_CALLBACK(1)));
    CHECK(denied.how() == NCS_DENIED && denied.trap() == 0 && box.call(at("count")).how() == NCS_DEAD);
    CHECK(box.reset() && box.call(at("logged"), 0).result<unsigned>().is(7));
}

#ifdef __cpp_exceptions
std::string message_of(ncs::Box &box, const char *name, unsigned n) {
    try {
        return box.call(at(name), n) ? "returned" : "ended";
    } catch (const std::runtime_error &error) {
        return error.what();
    }
}

void exceptions() {
    ncs::Box box = new_box();
    bool is_caught = false;
    CHECK(box.callback([&](ncs::Caller &caller, Untrusted<unsigned> n) {
        if (n.is(0)) {
            throw std::runtime_error("zero");
        }
        try {
            return caller.call(at("logged"), n.unchecked() - 1).result<unsigned>();
        } catch (const std::runtime_error &) {
            CHECK(caller.call(at("count")).how() == NCS_DEAD);
            if (is_caught) {
                return n;
            }
            throw;
        }
    }));
    CHECK(message_of(box, "logged", 0) == "zero" && box.call(at("count")).how() == NCS_DEAD);
    CHECK(box.reset() && message_of(box, "logged", 3) == "zero" && box.reset());
    is_caught = true;
    const auto end = box.call(at("logged"), 2);
    CHECK(end.how() == NCS_DENIED && box.reset() && box.call(at("count")).result<int>().is(41));
    CHECK(message_of(box, "count", 0) == "returned");
}

// From a box through a call-back of another one.
void exceptions_of_others() {
    ncs::Box outer = new_box(), inner = new_box();
    CHECK(inner.callback([](Untrusted<unsigned>) { throw std::runtime_error("inner"); }));
    CHECK(outer.callback([&](Untrusted<unsigned> n) { return inner.call(at("logged"), n).result<unsigned>(); }));
    CHECK(message_of(outer, "logged", 1) == "inner");
    CHECK(inner.call(at("count")).how() == NCS_DEAD && outer.call(at("count")).how() == NCS_DEAD);
}
#else
void exceptions() {}
void exceptions_of_others() {}
#endif

void lives() {
    ncs::Box box = new_box(), other = std::move(box), none;
    CHECK(box.call(at("count")).how() == NCS_HOST && !box.reset() && !box.put("x") && !box.take(1) && !box.callback(twice)); // NOLINT
    CHECK(box.bytes(at("buffer"), 1).empty() && !box.text(at("buffer"), 1) && !box.set(at("buffer"), "x") && box.handle() == nullptr);
    CHECK(!box.get<int>(at("buffer")) && !box.get<Header>(at("buffer")));
    CHECK(!none.killer().kill() && !ncs::Killer().kill() && other.call(at("count")).result<int>().is(41));
    int held = 0;
    auto count = std::shared_ptr<int>(&held, [](int *n) { ++*n; });
    CHECK(other.callback([count = std::move(count)] { return *count; }));
    other = new_box();
    CHECK(held == 1 && other.call(at("count")).result<int>().is(41));
    ncs::Box moved;
    CHECK(other.callback([&](ncs::Caller &caller, Untrusted<unsigned> n) {
        moved = std::move(other);
        return caller.call(at("add"), n, 1).result<unsigned>();
    }));
    CHECK(other.call(at("logged"), 1).result<unsigned>().is(3) && other.handle() == nullptr);
    CHECK(moved.call(at("count")).result<int>().is(42));
    std::uint8_t add[32];
    std::memset(add, 0x90, sizeof add);
    std::memcpy(add, "\x8B\x44\x24\x04\x03\x44\x24\x08\x59\x83\xE1\xE0\xFF\xE1", 14);
    auto made = ncs::Module::code(add);
    auto small = ncs::Box::make(*made, LIMITS);
    *made = ncs::Module(); // its box keeps it
    CHECK(small && small->call(ncs::At(0x10000), 7, 8).result<int>().is(15) && !made->symbol("add"));
}

// A box that a call-back of its own lets go of stays as it is, for that call. The killer also shows it to a detector of leaks.
void left_behind() {
    static ncs::Killer killer;
    auto box = std::make_unique<ncs::Box>(new_box());
    ncs::Box *same = box.get();
    killer = box->killer();
    CHECK(box->callback([&](ncs::Caller &caller, Untrusted<unsigned> n) {
        box.reset();
        return caller.call(at("add"), n, 1).result<unsigned>();
    }));
    CHECK(same->call(at("logged"), 1).result<unsigned>().is(3) && box == nullptr && killer.kill());
}

void names_of_places(const std::vector<char> &file) {
    const ncs::Place place = guest.function_at(at("sum") + 3), same = ncs::Module::function_in(checks::bytes_of(file), at("sum"));
    CHECK(place.name != nullptr && std::strcmp(place.name, "sum") == 0 && place.offset == 3);
    CHECK(same.name != nullptr && std::strcmp(same.name, "sum") == 0 && same.offset == 0);
    CHECK(guest.function_at(ncs::At()).name == nullptr && ncs::Module().function_at(at("sum")).name == nullptr);
    int sums = 0;
    guest.functions([&](ncs::At found, const char *name) { sums += found == at("sum") && std::strcmp(name, "sum") == 0; });
    CHECK(sums == 1);
    CHECK(guest.entry() == at("start") && ncs::Module().entry() == ncs::At());
}

void what_a_box_was_doing() {
    ncs::Box box = new_box();
    CHECK(!box.trace() && !ncs::Box().trace() && ncs::Box().linear().code == 0);
    const ncs::End end = box.call(at("touch"), 0x1234, 0);
    const auto trace = box.trace();
    CHECK(trace && trace->registers.size() == 8 && !trace->is_full && trace->calls.empty());
    CHECK(!end && std::strcmp(guest.function_at(end.place()).name, "touch") == 0);
    CHECK(box.linear().file.from == ncs::At(0x10000) && box.linear().file.len != 0 && box.reset() && !box.trace());
}

void live_code() {
    auto made = ncs::Module::live(8, 4);
    if (made.fault().number() == NCS_BAD_SYSTEM) {
        return; // the system has boxes, and no live code
    }
    const ncs::At start(0x10000);
    std::uint8_t code[NC_BUNDLE] = {0xB8, 5, 0, 0, 0, 0x59, 0x83, 0xE1, 0xE0, 0xFF, 0xE1}; // mov eax, 5; pop ecx; and ecx, -32; jmp ecx
    const std::uint8_t other[] = {0xB8, 7, 0, 0, 0};
    std::memset(code + 11, 0x90, NC_BUNDLE - 11);
    auto box = ncs::Box::make(*made, LIMITS);
    CHECK(box && box->call(start).how() == NCS_STOPPED && box->reset());
    CHECK(made->create(start, code) && box->call(start).result<int>().is(5));
    CHECK(made->patch(start, other) && box->call(start).result<int>().is(7));
    CHECK(made->patch(start + 1, other).fault().number() == NCS_BAD_CHANGE && box->call(start).result<int>().is(7));
    CHECK(made->delete_chunk(start) && box->call(start).how() == NCS_STOPPED && box->reset());
    auto occupied = made->create(start, code);
    CHECK(occupied.fault().number() == NCS_BAD_CHANGE && occupied.fault().verdict().number() == NC_OCCUPIED);
    CHECK(made->reclaim() == 1 && made->reclaim() == 0 && made->create(start, code) && box->call(start).result<int>().is(5));
    code[20] = 0xC3;
    auto refused = made->create(start + 64, code);
    CHECK(refused.fault().number() == NCS_BAD_CODE && refused.fault().at() == 0x10000 + 64 + 20);
    CHECK(guest.delete_chunk(start).fault().number() == NCS_NOT_LIVE && guest.reclaim() == 0);
    *made = ncs::Module();
    CHECK(made->delete_chunk(start).fault().number() == NCS_NOT_LIVE && box->call(start).result<int>().is(5));
}

void refusals() {
    const auto bad = ncs::Module::elf(checks::bytes_of("\177ELF", 4));
    CHECK(!bad && bad.fault().number() == NCS_BAD_FILE && bad.fault().sentence() != nullptr);
    std::uint8_t code[32];
    std::memset(code, 0x90, sizeof code);
    code[5] = 0xC3;
    auto refused = ncs::Module::code(code);
    CHECK(refused.fault().number() == NCS_BAD_CODE && refused.fault().verdict().number() == NC_NOT_PERMITTED);
    CHECK(refused.fault().at() == 0x10005 && ncs::Refusal().number() == NCS_OK);
    CHECK(ncs::Box::make(*refused, LIMITS).fault().number() == NCS_BAD_FILE);
    CHECK(ncs::Box::make(guest, {1, 1, 1}).fault().number() == NCS_BAD_LIMITS);
}

void threads() {
    ncs::Box box = new_box(), brief = new_box(BRIEF);
    ncs::Killer killer = box.killer(), same = killer;
    std::thread spins([mine = std::move(box)]() mutable {
        CHECK(mine.call(at("spin")).how() == NCS_KILLED && mine.reset() && mine.call(at("count")).result<int>().is(41));
    });
    CHECK(brief.call(at("spin")).how() == NCS_LATE);
    CHECK(same.kill());
    spins.join();
    CHECK(!killer.kill() && !same.kill());
    killer = brief.killer();
    CHECK(killer.kill() && brief.reset() && killer.kill() && brief.reset());
}

bool is_blocked(int sig) {
    sigset_t now;
    return pthread_sigmask(SIG_SETMASK, nullptr, &now) == 0 && sigismember(&now, sig) == 1;
}

bool handle(int sig, void (*handler)(int)) {
    struct sigaction action = {};
    action.sa_handler = handler;
    return sigaction(sig, &action, nullptr) == 0;
}

// Scopes hold signals in their own thread. A thread that is started has the mask of the one that starts it.
void held_signals() {
    ncs::Box box = new_box();
    {
        ncs::HeldSignals held;
        CHECK(held && held.fault().number() == NCS_OK && is_blocked(SIGUSR1) && !is_blocked(SIGSEGV) && !is_blocked(SIGRTMAX - 1));
        CHECK(ncs::HeldSignals().ok());
        CHECK(is_blocked(SIGUSR1) && box.call(at("count")).result<int>().is(41) && is_blocked(SIGUSR1));
        std::thread([] {
            sigset_t none;
            CHECK(sigemptyset(&none) == 0 && pthread_sigmask(SIG_SETMASK, &none, nullptr) == 0 && !is_blocked(SIGUSR1));
            CHECK(ncs::HeldSignals().ok() && is_blocked(SIGUSR1));
            CHECK(!is_blocked(SIGUSR1));
        }).join();
        CHECK(is_blocked(SIGUSR1));
    }
    CHECK(!is_blocked(SIGUSR1));
}

// A promise is untrue while a handler lacks its flag, and goes with a scope.
void promises() {
    ncs::Box box = new_box();
    CHECK(handle(SIGUSR2, [](int) {}));
    const auto refused = ncs::promise_flags();
    CHECK(!refused && refused.fault().number() == NCS_BAD_HANDLER && refused.fault().at() == SIGUSR2 && handle(SIGUSR2, SIG_DFL));
    CHECK(ncs::promise_flags() && !is_blocked(SIGUSR1) && box.call(at("count")).result<int>().is(41) && ncs::block_signals());
    CHECK(ncs::promise_flags() && ncs::HeldSignals().ok());
    CHECK(!is_blocked(SIGUSR1) && box.call(at("count")).result<int>().is(42));
}

// In a forked child calls, resets and new boxes are refused, and values may go all the same.
void children() {
    ncs::Box box = new_box();
    std::fflush(stdout);
    pid_t child = fork();
    if (child == 0) {
        bool refused = box.call(at("count")).how() == NCS_HOST && !box.reset() && !ncs::Box::make(guest, LIMITS);
        box = ncs::Box();
        guest = ncs::Module();
        _exit(refused ? 0 : 1);
    }
    int status = -1;
    CHECK(child > 0 && waitpid(child, &status, 0) == child && WIFEXITED(status) && WEXITSTATUS(status) == 0);
    CHECK(box.call(at("count")).result<int>().is(41));
}

// A child builds a wall, and no second one. It can still read what is open.
void walls() {
    std::fflush(stdout);
    pid_t child = fork();
    if (child == 0) {
        const int calls[] = {-1};
        char byte;
        bool refused = ncs::build_wall({}, calls).fault().number() == NCS_BAD_LIMITS;
        auto built = ncs::build_wall();
        bool stands = built.ok() ? *built != NCS_NO_WALL && ncs::build_wall().fault().number() == NCS_BAD_SYSTEM && read(-1, &byte, 1) == -1
                                 : built.fault().number() == NCS_BAD_SYSTEM;
        _exit(refused && stands ? 0 : 1);
    }
    int status = -1;
    CHECK(child > 0 && waitpid(child, &status, 0) == child && WIFEXITED(status) && WEXITSTATUS(status) == 0);
}

} // namespace

int main(int argc, char **argv) {
    const std::vector<char> file = checks::read_file(argc == 2 ? argv[1] : "");
    guest = checks::must(ncs::Module::elf(checks::bytes_of(file)));
    names_of_places(file);
    what_a_box_was_doing();
    for (auto test : {calls, memory, words_of_memory, callbacks, results_of_callbacks, within_itself, exceptions, exceptions_of_others,
                      lives, left_behind, live_code, refusals, threads, held_signals, promises, children, walls}) {
        test();
    }
    return checks::end();
}
