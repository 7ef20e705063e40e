// Tests of nc_host.hpp: each says what it tries, and what failed is printed with its line. `run` compiles and runs them.
#include "nc_host.hpp"

#include <array>
#include <atomic>
#include <chrono>
#include <cstdio>
#include <cstring>
#include <functional>
#include <mutex>
#include <thread>
#include <type_traits>
#include <utility>
#include <vector>

#define CHECK(condition) check((condition), #condition, __LINE__)

namespace {

constexpr std::uint32_t BUNDLES = 16, LIMIT = NC_LIMIT(BUNDLES);
constexpr std::size_t LEN = 2 * NC_BUNDLE, ROOM = LEN + 2;

using Code = std::array<std::uint8_t, LEN>;
using Room = std::array<NcAct, ROOM>;

std::atomic<int> failures{0};

void check(bool holds, const char *condition, int line) {
    if (!holds) {
        std::printf("line %d: FAILED: %s\n", line, condition);
        failures++;
    }
}

static_assert(std::is_nothrow_move_constructible_v<nc::Region> && std::is_nothrow_move_assignable_v<nc::Region>);
static_assert(!std::is_copy_constructible_v<nc::Region> && !std::is_copy_assignable_v<nc::Region>);
static_assert(!std::is_copy_constructible_v<nc::Seat> && !std::is_copy_constructible_v<nc::Vetted>);
static_assert(!std::is_move_constructible_v<nc::Deletion>);
static_assert(sizeof(nc::Region) == sizeof(NcRegion) && sizeof(nc::Seat) == sizeof(NcSeat) && sizeof(nc::Vetted) == sizeof(NcVetted));

// Two bundles: mov eax, 5 and a jump to the second, where a masked jump stands; the rest is nops.
Code chunk_code() {
    Code code;
    code.fill(0x90);
    std::memcpy(code.data(), "\xB8\x05\x00\x00\x00\xEB\x19", 7);
    std::memcpy(code.data() + NC_BUNDLE, "\x83\xE3\xE0\xFF\xE3", 5);
    return code;
}

// Memory of the host's own, and everything that acts ask of it.
class Memory {
  public:
    Memory() : bytes_(LIMIT - NC_START, std::uint8_t(NC_STOP)) {}
    void put(std::uint32_t at, std::uint8_t byte) { bytes_[at - NC_START] = byte; }
    void serialize() { serialized++; }
    void mark(std::uint32_t, std::uint32_t length) { marked += length; }
    void bump() { bumped++; }

    // Whether it has the region's bytes.
    bool follows(nc::Region &region) const {
        for (std::uint32_t at = NC_START; at < LIMIT; at++) {
            auto place = region.place(at);
            if (!place || place->byte != bytes_[at - NC_START]) {
                return false;
            }
        }
        return true;
    }

    unsigned serialized = 0, marked = 0, bumped = 0;

  private:
    std::vector<std::uint8_t> bytes_;
};

// A list of the acts that are visited, one by one.
struct List {
    void put(std::uint32_t at, std::uint8_t byte) { acts.push_back({NC_PUT, at, byte}); }
    void serialize() { acts.push_back({NC_SERIALIZE, 0, 0}); }
    void mark(std::uint32_t at, std::uint32_t length) { acts.push_back({NC_MARK, at, length}); }
    void bump() { acts.push_back({NC_BUMP, 0, 0}); }

    bool same_as(nc::Acts others) const {
        bool same = acts.size() == others.size();
        for (std::size_t i = 0; same && i < acts.size(); i++) {
            same = acts[i].kind == others[i].kind && acts[i].at == others[i].at && acts[i].value == others[i].value;
        }
        return same;
    }

    std::vector<NcAct> acts;
};

bool is(nc::Fault fault, std::uint32_t number, const char *name) {
    return fault.number() == number && std::strcmp(fault.name(), name) == 0;
}

nc::Region new_region(std::uint32_t seats = 1) {
    auto made = nc::Region::make(BUNDLES, seats);
    CHECK(made.ok());
    return std::move(made).value();
}

void life_of_a_chunk() {
    nc::Region region = new_region();
    auto seat = region.seat();
    Memory memory;
    Room acts;
    auto created = region.create(NC_START, chunk_code(), acts);
    CHECK(created && created->size() == ROOM && nc::visit(*created, memory) && memory.follows(region));
    CHECK(memory.serialized == 1 && memory.marked == LEN && memory.bumped == 0);
    auto stamp = region.delete_chunk(NC_START, acts, [&](nc::Deletion &deletion) {
        CHECK(is(region.reclaim().fault(), NC_UNDER_WAY, "NC_UNDER_WAY"));
        CHECK(nc::visit(deletion.acts(), memory));
    });
    CHECK(stamp && *stamp == 1 && memory.bumped == 1 && memory.follows(region));
    CHECK(*region.generation() == 1 && region.chunk(0)->retired == 1 && region.chunk(0)->stamp == 1);
    CHECK(*region.reclaim() == 0);
    CHECK(seat->check_in().ok());
    CHECK(*region.reclaim() == 1 && is(region.chunk(0).fault(), NC_NO_CHUNK, "NC_NO_CHUNK"));
    CHECK(region.create(NC_START, chunk_code(), acts).ok());
}

void refusals() {
    nc::Region region = new_region();
    Room acts;
    Code code = chunk_code();
    CHECK(is(nc::Region::make(1, 1).fault(), NC_BAD_SIZE, "NC_BAD_SIZE"));
    CHECK(is(nc::Region::make(BUNDLES, 257).fault(), NC_BAD_SEATS, "NC_BAD_SEATS"));
    CHECK(is(region.create(NC_START + 1, code, acts).fault(), NC_BAD_BASE, "NC_BAD_BASE"));
    CHECK(is(region.create(NC_START, nc::Bytes(), acts).fault(), NC_BAD_LENGTH, "NC_BAD_LENGTH"));
    auto short_of_room = region.create(NC_START, code, nc::Buffer(acts).first(1));
    CHECK(is(short_of_room.fault(), NC_NO_ROOM, "NC_NO_ROOM") && short_of_room.fault().enough() == ROOM && short_of_room->empty());
    code[10] = 0xC3;
    auto refused = region.create(NC_START, code, acts);
    CHECK(is(refused.fault(), NC_NOT_PERMITTED, "NC_NOT_PERMITTED") && refused.fault().at() == NC_START + 10);
    CHECK(std::strcmp(refused.fault().sentence(), "no permitted instruction is at the address, within its bundle") == 0);
    CHECK(is(nc::Vetted::make(NC_START, LIMIT, code).fault(), NC_NOT_PERMITTED, "NC_NOT_PERMITTED"));
    CHECK(is(region.delete_chunk(NC_START, acts, [](nc::Deletion &) { CHECK(false); }).fault(), NC_NO_CHUNK, "NC_NO_CHUNK"));
    CHECK(is(region.resume_delete([](nc::Deletion &) { CHECK(false); }).fault(), NC_NOT_BEGUN, "NC_NOT_BEGUN"));
    CHECK(is(region.place(LIMIT).fault(), NC_NO_PLACE, "NC_NO_PLACE"));
    CHECK(region.seat().ok() && is(region.seat().fault(), NC_NO_SEAT, "NC_NO_SEAT"));
    CHECK(std::strcmp(nc::Fault(11).name(), "?") == 0 && std::strcmp(nc::Fault(11).sentence(), "?") == 0);
}

void patch() {
    nc::Region region = new_region();
    Memory memory;
    Room acts;
    const std::uint8_t other[] = {0xB8, 7, 0, 0, 0}, ret[] = {0xC3};
    CHECK(nc::visit(*region.create(NC_START, chunk_code(), acts), memory));
    auto patched = region.patch(NC_START, other, acts);
    CHECK(patched && patched->size() == 8 && nc::visit(*patched, memory) && memory.serialized == 3 && memory.follows(region));
    CHECK(region.place(NC_START + 1)->byte == 7 && region.place(NC_START + 35)->mark == NC_MASKED(3));
    CHECK(region.patch(NC_START, other, acts)->empty());
    CHECK(is(region.patch(NC_START + 8, ret, acts).fault(), NC_PATCH_NOT_PERMITTED, "NC_PATCH_NOT_PERMITTED"));
    CHECK(is(region.patch(NC_START + 2 * LEN, other, acts).fault(), NC_PATCH_NOT_LIVE, "NC_PATCH_NOT_LIVE"));
}

void runs_written_out() {
    nc::Region region = new_region();
    const Code code = chunk_code();
    Room acts, runs;
    List one_by_one;
    auto created = region.create(NC_START + LEN, code, acts);
    auto created_runs = region.creation_runs(NC_START + LEN, runs);
    CHECK(created_runs && created_runs->size() == LEN / 16 + 2);
    CHECK(!nc::visit(*created_runs, one_by_one) && one_by_one.acts.empty());
    CHECK(!nc::visit(*created_runs, NC_START, code, one_by_one) && one_by_one.acts.empty());
    CHECK(!nc::visit(*created_runs, NC_START + LEN, nc::Bytes(code).first(NC_BUNDLE), one_by_one) && one_by_one.acts.empty());
    CHECK(nc::visit(*created_runs, NC_START + LEN, code, one_by_one) && one_by_one.same_as(*created));
    CHECK(region.creation_runs(NC_START + LEN, nc::Buffer()).fault().enough() == LEN / 16 + 2);
    auto stamp = region.delete_chunk(NC_START + LEN, acts, [&](nc::Deletion &deletion) {
        auto deletion_runs = deletion.runs(runs);
        List stops;
        CHECK(deletion_runs && deletion_runs->size() == LEN / 16 + 2);
        CHECK(nc::visit(*deletion_runs, stops) && stops.same_as(deletion.acts()) && stops.acts.size() == ROOM);
    });
    CHECK(stamp.ok());
    const NcAct strange[] = {{NC_SERIALIZE, 0, 0}, {4, 0, 0}};
    List none;
    CHECK(!nc::visit(strange, none) && none.acts.empty());
}

// After an exception a deletion is begun, and not ended.
void a_deletion_taken_up_again() {
    nc::Region region = new_region();
    Memory memory;
    Room acts;
    CHECK(nc::visit(*region.create(NC_START, chunk_code(), acts), memory));
#ifdef __cpp_exceptions
    try {
        (void)region.delete_chunk(NC_START, acts, [](nc::Deletion &) { throw 1; });
        CHECK(false);
    } catch (int) {}
#else
    CHECK(nc_region_begin_delete(region.handle(), NC_START, nullptr, 0).fault == NC_OK);
#endif
    CHECK(is(region.create(NC_START + LEN, chunk_code(), acts).fault(), NC_UNDER_WAY, "NC_UNDER_WAY"));
    auto stamp =
        region.resume_delete([&](nc::Deletion &deletion) { CHECK(deletion.acts().empty() && nc::visit(*deletion.runs(acts), memory)); });
    CHECK(stamp && *stamp == 1 && memory.follows(region) && region.create(NC_START + LEN, chunk_code(), acts).ok());
}

void moves() {
    Room acts;
    nc::Region region = new_region(), other;
    CHECK(is(other.generation().fault(), NC_NO_HANDLE, "NC_NO_HANDLE"));
    CHECK(region.create(NC_START, chunk_code(), acts).ok());
    other = std::move(region);
    CHECK(other.chunk(0).ok() && is(region.chunk(0).fault(), NC_NO_HANDLE, "NC_NO_HANDLE"));
    other = new_region();
    CHECK(!other.chunk(0) && other.generation().ok());
    nc::Region &itself = other;
    other = std::move(itself);
    CHECK(other.generation().ok());
    auto given = other.seat();
    nc::Seat seat = std::move(given).value();
    other = nc::Region();
    CHECK(seat.check_in().ok() && is(given->check_in().fault(), NC_NO_HANDLE, "NC_NO_HANDLE"));
    seat.leave();
    CHECK(!seat.check_in());
}

void vetted_chunks() {
    nc::Region region = new_region();
    Room acts;
    auto vetted = nc::Vetted::make(NC_START, LIMIT, chunk_code());
    CHECK(vetted && region.create(NC_START, chunk_code(), acts).ok());
    CHECK(is(region.load(*vetted, acts).fault(), NC_OCCUPIED, "NC_OCCUPIED"));
    nc::Region free = new_region();
    CHECK(free.load(*vetted, acts).ok() && is(free.load(*vetted, acts).fault(), NC_NO_HANDLE, "NC_NO_HANDLE"));
    auto lower = nc::Vetted::make(NC_START, LIMIT - NC_BUNDLE, chunk_code());
    CHECK(is(free.load(*lower, acts).fault(), NC_WRONG_LIMIT, "NC_WRONG_LIMIT"));
}

// A file with one segment, which has the chunk's code.
std::vector<std::uint8_t> chunk_file() {
    const std::uint8_t headers[] = {
        0x7F, 'E', 'L', 'F', 1,   1, 1, 0, 0,   0, 0,  0, 0, 0, 0, 0, 2,  0, 3, 0, 1, 0, 0, 0, 0,  0, 0, 0, 52, 0, 0, 0, // the file's
        0,    0,   0,   0,   0,   0, 0, 0, 52,  0, 32, 0, 1, 0, 0, 0, 0,  0, 0, 0, 1, 0, 0, 0, 84, 0, 0, 0, 0,  0, 1, 0,
        0,    0,   0,   0,   LEN, 0, 0, 0, LEN, 0, 0,  0, 5, 0, 0, 0, 32, 0, 0, 0, // the segment's
    };
    std::vector<std::uint8_t> file(std::begin(headers), std::end(headers));
    Code code = chunk_code();
    file.insert(file.end(), code.begin(), code.end());
    return file;
}

void loaded_once() {
    std::vector<std::uint8_t> file = chunk_file(), text(LIMIT - NC_START, 0);
    NcSegment room[2];
    auto found = nc::loaded_segments(file, room);
    CHECK(found && found->size() == 1);
    const NcSegment segment = (*found)[0];
    CHECK(segment.address == NC_START && segment.offset == 84 && segment.file_len == LEN && segment.memory_len == LEN &&
          segment.flags == 5);
    CHECK(nc::loaded_segments(file, nc::Span<NcSegment>()).fault().enough() == 1);
    nc::Bytes code(file.data() + segment.offset, segment.file_len);
    Memory memory;
    nc::Region region = new_region();
    Room acts;
    CHECK(nc::fill_image(segment.address, code, text).ok() && nc::visit(*region.create(segment.address, code, acts), memory));
    for (std::uint32_t at = NC_START; at < LIMIT; at++) {
        CHECK(text[at - NC_START] == region.place(at)->byte);
    }
    file[84 + 1] = 0xC3;
    file[84] = 0x90;
    CHECK(is(nc::fill_image(segment.address, code, text).fault(), NC_NOT_PERMITTED, "NC_NOT_PERMITTED"));
    CHECK(nc::fill_image(segment.address, code, text).fault().at() == NC_START + 1 && text[0] == 0xB8);
    file[76] |= 2; // the segment's flags
    CHECK(is(nc::loaded_segments(file, room).fault(), NC_ELF_WRITABLE_CODE, "NC_ELF_WRITABLE_CODE"));
}

void chunks_and_walks() {
    nc::Region region = new_region();
    Room acts;
    for (const NcChunk &chunk : region.chunks()) {
        CHECK(chunk.base == 0);
    }
    for (std::uint32_t k : {4u, 0u, 2u}) {
        CHECK(region.create(NC_START + LEN * k, chunk_code(), acts).ok());
    }
    std::vector<std::uint32_t> bases;
    for (const NcChunk &chunk : region.chunks()) {
        CHECK(chunk.length == LEN && chunk.retired == 0);
        bases.push_back(chunk.base);
    }
    CHECK((bases == std::vector<std::uint32_t>{NC_START, NC_START + 2 * LEN, NC_START + 4 * LEN}));
    CHECK(region.chunk_at(NC_START + LEN - 1)->base == NC_START && region.chunk_at(NC_START + LEN)->base == NC_START + 2 * LEN);
    CHECK(region.chunk_at(0)->base == NC_START && is(region.chunk_at(NC_START + 5 * LEN).fault(), NC_NO_CHUNK, "NC_NO_CHUNK"));
    const std::uint32_t choices[] = {0, 0, 0, NC_START + LEN + 5};
    std::array<std::uint32_t, 5> places;
    auto walk = region.walk(NC_START, choices, places);
    CHECK(walk && walk->end == NC_END_STOP && walk->places.size() == 5 && walk->places[4] == NC_START + LEN);
    CHECK(region.walk(NC_START, choices, nc::Span<std::uint32_t>(places).first(2)).fault().enough() == 5);
    CHECK(is(region.walk(NC_START + 1, choices, places).fault(), NC_NO_START, "NC_NO_START"));
}

// The host's own lock, around the calls on the region and the acts.
struct Host {
    std::mutex lock;
    nc::Region region = new_region(3);
    Memory memory;
};

// One of the threads: its chunk is created, patched and deleted until that was done some times, beside the others and their chunks.
void run(Host &host, nc::Seat seat, std::uint32_t base) {
    const std::uint8_t other[] = {0xB8, 7, 0, 0, 0};
    Room acts;
    for (int made = 0, tries = 0; made < 200 && failures == 0; tries++) {
        CHECK(tries < 100000 && seat.check_in().ok());
        std::this_thread::sleep_for(std::chrono::microseconds(tries % 2));
        std::lock_guard<std::mutex> guard(host.lock);
        auto created = host.region.create(base, chunk_code(), acts);
        if (!created) {
            CHECK(is(created.fault(), NC_OCCUPIED, "NC_OCCUPIED") && host.region.reclaim().ok());
            continue;
        }
        CHECK(nc::visit(*created, host.memory));
        CHECK(nc::visit(*host.region.patch(base, other, acts), host.memory));
        CHECK(host.region.delete_chunk(base, acts, [&](nc::Deletion &deletion) { nc::visit(deletion.acts(), host.memory); }).ok());
        made++;
    }
}

void seats_in_threads() {
    Host host;
    std::vector<nc::Seat> seats;
    for (int k = 0; k < 3; k++) { // before there are threads, so without the lock
        seats.push_back(host.region.seat().value());
    }
    std::vector<std::thread> threads;
    for (std::uint32_t k = 0; k < 3; k++) {
        threads.emplace_back(run, std::ref(host), std::move(seats[k]), std::uint32_t(NC_START + LEN * k));
    }
    for (std::thread &thread : threads) {
        thread.join();
    }
    CHECK(*host.region.generation() == 600 && host.region.reclaim().ok() && !host.region.chunk(0) && host.memory.follows(host.region));
}

} // namespace

int main() {
    life_of_a_chunk();
    refusals();
    patch();
    runs_written_out();
    a_deletion_taken_up_again();
    moves();
    vetted_chunks();
    loaded_once();
    chunks_and_walks();
    seats_in_threads();
    std::printf("nc_host.hpp: %s\n", failures == 0 ? "all as it should be" : "FAILED");
    return failures != 0;
}
