// Tests of nc_sandbox.hpp: beside_test ASKER, on modules of sandbox/tests/asker.c. Boxes beside one another, and code that boxes make. What
// failed is printed with its line. tests/sandbox/box-bindings compiles and runs them.
#include "checks.hpp"

#include <atomic>
#include <cstring>
#include <stdexcept>
#include <thread>

namespace {

using ncs::Untrusted;

constexpr ncs::Limits LIMITS = {0x200000, 4, 10000};
constexpr std::uint32_t BUNDLES = 0x1000, STACK = 0x8000, ROUNDS = 1000;
constexpr ncs::At FIRST(NCS_CALLBACK(0)), TOP(LIMITS.memory);

static_assert(std::is_aggregate_v<ncs::CodeSpan> && std::is_aggregate_v<ncs::Hole>);

std::vector<char> file;

// A module that begins as the asker, in whose boxes so many calls may be under way.
ncs::Module new_module(std::uint32_t calls = 4) {
    return checks::must(ncs::Module::live_elf(checks::bytes_of(file), BUNDLES, calls));
}

ncs::Box new_box(const ncs::Module &module) {
    auto made = ncs::Box::make(module, LIMITS);
    CHECK(made.ok());
    return std::move(made).value();
}

// A box beside another one, with a stack from its heap.
ncs::Box beside(ncs::Access &box, std::uint32_t milliseconds = 10000) {
    auto made = box.beside(box.take(STACK) + STACK, 2, milliseconds);
    CHECK(made.ok());
    return std::move(made).value();
}

// Calls of functions by their names, and the words by which code in a loop is told to end, and tells that it runs.
struct Asker {
    const ncs::Module &module;

    ncs::At at(const char *name) const { return module.symbol(name); }
    ncs::At word(std::uint32_t k) const { return at("words") + 4 * k; }

    template <class... Args>
    ncs::End call(ncs::Access &box, const char *name, Args... args) const {
        return box.call(at(name), args...);
    }

    template <class... Args>
    bool gives(ncs::Access &box, int result, const char *name, Args... args) const {
        const ncs::End end = call(box, name, args...);
        return end.how() == NCS_RETURNED && end.result<int>().is(result);
    }

    ncs::End stay(ncs::Access &box) const { return call(box, "run_often", at("seven"), 7); }
    void until_inside(ncs::Access &box) const {
        while (box.get<unsigned>(word(1))->is(0)) {
            std::this_thread::yield();
        }
    }
};

// mov eax, n; pop ecx; and ecx, -32; jmp ecx
struct Returns {
    std::uint8_t code[NC_BUNDLE] = {0xB8, 0, 0, 0, 0, 0x59, 0x83, 0xE1, 0xE0, 0xFF, 0xE1};

    explicit Returns(std::uint8_t n) {
        code[1] = n;
        std::memset(code + 11, 0x90, sizeof code - 11);
    }
};

bool is_hole(const ncs::Hole &hole, ncs::At at, std::uint32_t len, std::uint32_t held = 0) {
    return hole.at == at && hole.len == len && hole.held == held;
}

// The whole room's first hole.
ncs::Hole first_hole(ncs::Module &module) {
    return module.hole(ncs::At(), ncs::At(0xFFFFFFFF));
}

/* ---- Modules */

void files() {
    ncs::Module module = new_module(), none;
    const Asker asker{module};
    const ncs::CodeSpan room = module.room();
    ncs::Box box = new_box(module);
    CHECK(room.from.number().unchecked() % 4096 == 0 && room.len >= BUNDLES * NC_BUNDLE && room.len <= BUNDLES * NC_BUNDLE + 4096);
    const ncs::End stopped = asker.call(box, "run", room.from);
    CHECK(stopped.how() == NCS_STOPPED && stopped.place() == room.from && box.reset());
    CHECK(module.create(room.from, Returns(5).code) && asker.gives(box, 5, "run", room.from) && asker.gives(box, 7, "seven"));
    CHECK(ncs::Module::elf(checks::bytes_of(file))->room().len == 0 && none.room().len == 0 && none.hole(room.from, TOP).len == 0);
    CHECK(ncs::Module::live(8, 1)->room().from == ncs::At(0x10000));
    CHECK(ncs::Module::live_elf(checks::bytes_of("none", 4), 8, 1).fault().number() == NCS_BAD_FILE);
    constexpr std::uint32_t wrong[][2] = {{0, 1}, {1 << 21, 1}, {8, 0}, {8, NCS_LIVE_CALLS + 1}};
    for (const auto &[bundles, calls] : wrong) {
        CHECK(ncs::Module::live_elf(checks::bytes_of(file), bundles, calls).fault().number() == NCS_BAD_LIMITS);
        CHECK(ncs::Module::live(bundles, calls).fault().number() == NCS_BAD_LIMITS);
    }
}

// Calls within calls count too.
void calls_under_way() {
    for (std::uint32_t calls : {1u, 2u}) {
        const ncs::Module module = new_module(calls);
        const Asker asker{module};
        ncs::Box box = new_box(module);
        CHECK(box.callback([&](ncs::Caller &caller) { return asker.call(caller, "seven").how(); }));
        CHECK(asker.gives(box, calls == 1 ? NCS_BUSY : NCS_RETURNED, "find", 0, 0));
    }
}

void holes() {
    ncs::Module module = new_module();
    const Asker asker{module};
    const ncs::CodeSpan room = module.room();
    const ncs::At from = room.from, chunk = from + 64, end = from + room.len;
    CHECK(is_hole(first_hole(module), from, room.len) && module.create(chunk, Returns(5).code));
    CHECK(is_hole(first_hole(module), from, 64) && is_hole(module.hole(from, from + 32), from, 32));
    CHECK(is_hole(module.hole(chunk, end), chunk + 32, room.len - 96) && is_hole(module.hole(chunk, chunk + 32), chunk + 32, 0));
    ncs::Box box = new_box(module), other = beside(box);
    std::thread stays([&] { CHECK(asker.stay(box).result<int>().is(0)); });
    asker.until_inside(other);
    CHECK(module.delete_chunk(chunk) && is_hole(module.hole(chunk, end), chunk + 32, room.len - 96, 32));
    CHECK(other.set(asker.word(0), "\1"));
    stays.join();
    CHECK(is_hole(first_hole(module), from, room.len));
}

void areas() {
    ncs::Module module = new_module();
    const Asker asker{module};
    const ncs::CodeSpan room = module.room(), area = {room.from + 64, 128};
    ncs::Box box = new_box(module), poor = new_box(module);
    const ncs::At bytes = asker.at("bytes"), hole = asker.at("hole");
    CHECK(!box.code_calls({area.from + room.len, 32}) && !box.code_calls({area.from, 33}) && !box.code_calls({area.from, room.len}));
    CHECK(box.code_calls(area) == FIRST && !box.code_calls(room) && !ncs::Box().code_calls(area) && box.set(bytes, Returns(9).code));
    CHECK(asker.gives(box, 0, "create", area.from, bytes, 32) && asker.gives(box, 9, "run", area.from));
    CHECK(asker.gives(box, -static_cast<int>(NCS_FAULT_CODE + NC_OCCUPIED), "create", area.from, bytes, 32));
    CHECK(asker.gives(box, -22, "create", area.from + area.len, bytes, 32) && asker.gives(box, 0, "find", 0, hole));
    CHECK(box.get<ncs::At>(hole) == area.from + 32 && box.get<unsigned>(hole + 4)->is(96));
    CHECK(box.reset() && is_hole(first_hole(module), room.from, room.len));
    CHECK(poor.code_calls({}) == FIRST && asker.gives(poor, -22, "create", area.from, bytes, 32));
}

/* ---- Boxes beside one another */

void memory() {
    const ncs::Module module = new_module();
    const Asker asker{module};
    ncs::Box box = new_box(module), other = beside(box), third = beside(box);
    CHECK(box.set(asker.word(3), "\5") && other.get<unsigned>(asker.word(3))->is(5));
    CHECK(asker.gives(other, 600, "deep", 100) && asker.gives(box, 600, "deep", 100));
    const ncs::At taken = other.take(16), put = box.put("both");
    CHECK(put == taken + 16 && *other.text(put, 4) == "both" && box.bytes(put, 4).data() == third.bytes(put, 4).data());
    CHECK(other.callback([] { return 11; }) == FIRST && asker.gives(other, 11, "find", 0, 0));
    CHECK(asker.call(box, "find", 0, 0).how() == NCS_BAD_CALL && asker.call(box, "seven").how() == NCS_DEAD);
    CHECK(asker.gives(other, 7, "seven") && other.reset() && asker.gives(box, 7, "seven") && box.get<unsigned>(asker.word(3))->is(0));
    box = ncs::Box();
    CHECK(asker.gives(third, 7, "seven"));
    third = std::move(other);
    CHECK(asker.gives(third, 1, "deep", 1) && !other.beside(TOP, 2, 10)); // NOLINT
    CHECK(asker.gives(third, 11, "find", 0, 0));
}

void refusals() {
    const ncs::Module module = new_module();
    const Asker asker{module};
    ncs::Box box = new_box(module);
    CHECK(box.beside(ncs::At(0x180008), 2, 10).fault().number() == NCS_BAD_LIMITS);
    CHECK(!box.beside(ncs::At(), 2, 10) && !box.beside(TOP + 16, 2, 10) && !box.beside(TOP, 0, 10) && !box.beside(TOP, 65, 10));
    CHECK(!box.beside(TOP, 2, 0) && ncs::Box().beside(TOP, 2, 10).fault().number() == NCS_BAD_LIMITS);
    auto deep = box.beside(TOP, 1, 1000);
    CHECK(deep && deep->callback([&](ncs::Caller &caller) { return asker.call(caller, "seven").how(); }));
    CHECK(asker.gives(*deep, NCS_TOO_DEEP, "find", 0, 0));
}

// One has no time any more, one is killed, one goes on. Meanwhile nothing is reset.
void limits() {
    const ncs::Module module = new_module();
    const Asker asker{module};
    ncs::Box box = new_box(module), late = beside(box, 30), killed = beside(box);
    std::thread spins([&] { CHECK(asker.stay(killed).how() == NCS_KILLED); });
    asker.until_inside(box);
    CHECK(asker.stay(late).how() == NCS_LATE && !late.reset() && !box.reset() && asker.gives(box, 7, "seven"));
    CHECK(killed.killer().kill());
    spins.join();
    CHECK(asker.call(killed, "seven").how() == NCS_DEAD && box.reset() && asker.gives(killed, 7, "seven") && asker.gives(late, 7, "seven"));
}

// A call-back starts a thread, as code in a box asks for it. What the thread's own call-back throws comes out of its call.
void from_callbacks() {
    const ncs::Module module = new_module();
    const Asker asker{module};
    ncs::Box box = new_box(module);
    CHECK(box.callback([&](ncs::Caller &caller) {
        ncs::Box other = beside(caller);
        bool works = false;
        std::thread([&] { works = asker.stay(other).result<int>().is(0); }).join();
        return works;
    }));
    CHECK(box.set(asker.word(0), "\1") && asker.gives(box, 1, "find", 0, 0));
#ifdef __cpp_exceptions
    ncs::Box other = beside(box);
    bool thrown = false;
    CHECK(other.callback([] { throw std::runtime_error("other"); }));
    try {
        (void)asker.call(other, "find", 0, 0);
    } catch (const std::runtime_error &) {
        thrown = true;
    }
    CHECK(thrown && asker.call(other, "seven").how() == NCS_DEAD && asker.gives(box, 1, "find", 0, 0));
#endif
}

// Boxes come and go beside one that another thread resets.
void resets() {
    const ncs::Module module = new_module();
    const Asker asker{module};
    ncs::Box box = new_box(module), first = beside(box);
    std::atomic<unsigned> done{0};
    std::thread resets([&] {
        while (done < ROUNDS) {
            done += box.reset();
            std::this_thread::yield();
        }
    });
    while (done < ROUNDS) {
        auto other = first.beside(TOP, 2, 1000);
        const ncs::End end = asker.call(*other, "seven");
        CHECK(end.how() == NCS_BUSY || end.result<int>().is(7));
    }
    resets.join();
    CHECK(box.reset() && asker.gives(first, 7, "seven"));
}

// A thread compiles, two execute what it has compiled, and one deletes that.
void generators() {
    ncs::Module module = new_module();
    const Asker asker{module};
    {
        ncs::Box compiles = new_box(module), sweeps = beside(compiles), one = beside(compiles), other = beside(compiles);
        for (ncs::Box *box : {&compiles, &sweeps, &one, &other}) {
            CHECK(box->code_calls(module.room()) == FIRST && box->callback([] {}) == ncs::At(NCS_CALLBACK(4)));
        }
        std::thread threads[] = {std::thread([&] { CHECK(asker.gives(compiles, 0, "compile", ROUNDS)); }),
                                 std::thread([&] { CHECK(asker.gives(sweeps, 0, "sweep", ROUNDS, 2)); }),
                                 std::thread([&] { CHECK(asker.gives(one, 0, "execute", 0, ROUNDS)); })};
        CHECK(asker.gives(other, 0, "execute", 1, ROUNDS));
        for (std::thread &thread : threads) {
            thread.join();
        }
    }
    CHECK(first_hole(module).len == module.room().len);
}

} // namespace

int main(int argc, char **argv) {
    file = checks::read_file(argc == 2 ? argv[1] : "");
    const bool has_live_code = ncs::Module::live(1, 1).fault().number() != NCS_BAD_SYSTEM; // a system may have boxes, and none
    for (auto test : {files, calls_under_way, holes, areas, memory, refusals, limits, from_callbacks, resets, generators}) {
        if (has_live_code && checks::failures == 0) { // a thread may wait long for what has failed
            test();
        }
    }
    return checks::end();
}
