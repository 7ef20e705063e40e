// A first host in C++. It does the same as first.c, by the values of nc_host.hpp.
//
// It executes nothing, and has no thread but its own. tests/nc_host/bindings compares its output with first.txt. From the top of the
// repository, with the library built and `kit` set as in docs/INSTALL.md:
//
//     g++ -std=c++17 -Iinclude -Ibindings/cpp examples/host/first.cpp crates/nc_host/out/libnc_host.a "$kit/c/liblibc_c.a" -o host && ./host
#include "nc_host.hpp"

#include <array>
#include <atomic>
#include <cstdio>
#include <cstring>

namespace {

constexpr std::uint32_t BUNDLES = 4;
constexpr std::size_t ROOM = NC_BUNDLE + 2; // places that are enough for the acts of any change of a chunk of one bundle but a long patch's

using Code = std::array<std::uint8_t, NC_BUNDLE>;

// What threads would execute.
class Memory : public nc::PutsOnly {
  public:
    Memory() {
        for (auto &byte : bytes_) {
            byte.store(NC_STOP);
        }
    }

    void put(std::uint32_t at, std::uint8_t byte) { bytes_[at - NC_START].store(byte, std::memory_order_seq_cst); }

    // Here each processor that runs a thread of the host would serialize: membarrier, on Linux.
    void serialize() {}

    void show(const char *name, nc::Fault fault) const {
        std::printf("%s: %s; memory begins %02x %02x\n", name, fault.sentence(), unsigned(bytes_[0]), unsigned(bytes_[1]));
    }

  private:
    std::array<std::atomic<std::uint8_t>, BUNDLES * NC_BUNDLE> bytes_;
};

// mov eax, 5; a jump to the bundle start below the region, where a way out would stand; nops up to the bundle's end.
Code first_code() {
    constexpr std::uint32_t behind_jump = NC_START + 10, out = NC_START - NC_BUNDLE, rel = out - behind_jump;
    Code code;
    code.fill(0x90);
    std::memcpy(code.data(), "\xB8\x05\x00\x00\x00\xE9", 6);
    std::memcpy(code.data() + 6, &rel, sizeof rel);
    return code;
}

// Makes the acts of a change, one after the other.
void make(Memory &memory, const char *name, nc::Result<nc::Acts> acts) {
    nc::visit(acts.value(), memory);
    memory.show(name, acts.fault());
}

} // namespace

int main() {
    const Code code = first_code();
    const std::uint8_t other[] = {0xB8, 7, 0, 0, 0}; // mov eax, 7: the whole instruction, not only its number
    std::array<NcAct, ROOM> acts;
    Memory memory;
    auto made = nc::Region::make(BUNDLES, 1);
    auto given = made->seat();
    if (!made || !given) {
        return 1;
    }
    nc::Region &region = *made;
    nc::Seat &seat = *given;
    make(memory, "create", region.create(NC_START, code, acts));
    make(memory, "patch", region.patch(NC_START, other, acts));
    auto stamp = region.delete_chunk(NC_START, acts, [&](nc::Deletion &deletion) {
        nc::visit(deletion.acts(), memory); // first the stops, then the stamp
    });
    memory.show("delete", stamp.fault());
    std::printf("reclaimed: %u\n", unsigned(*region.reclaim()));
    if (!seat.check_in()) { // by the seat's thread, once it is outside
        return 1;
    }
    std::printf("reclaimed: %u\n", unsigned(*region.reclaim()));
    make(memory, "create again", region.create(NC_START, code, acts));
}
