// Unpacks runs of letters by a decoder that nobody has to trust: unpack UNPACK.ELF. It does what examples/boxes/host.c does.
#include "nc_sandbox.hpp"

#include <cstdio>
#include <fstream>
#include <iterator>

static void unpack(const ncs::Module &module, ncs::Box &box, std::string_view packed) {
    std::uint8_t text[64];
    ncs::At in = box.put(packed), out = box.take(sizeof text);
    ncs::End end = box.call(module.symbol("unpack"), out, in, static_cast<std::uint32_t>(packed.size()));
    auto len = end.result<std::uint32_t>().at_most(sizeof text); // the box may name any length
    std::printf("%.*s: ", int(packed.size()), packed.data());
    if (!end) {
        std::printf("%s by interrupt %u\n", end.name(), unsigned(end.trap()));
    } else if (len && box.get({text, *len}, out)) {
        std::printf("%.*s\n", int(*len), reinterpret_cast<const char *>(text));
    } else {
        std::printf("a length that is untrue\n");
    }
}

int main(int argc, char **argv) {
    std::ifstream in(argc == 2 ? argv[1] : "", std::ios::binary);
    std::vector<char> file{std::istreambuf_iterator<char>(in), {}};
    auto module = ncs::Module::elf({reinterpret_cast<const std::uint8_t *>(file.data()), file.size()});
    auto box = ncs::Box::make(*module, {4 << 20, 1, 100}); // bytes of memory, calls within calls, milliseconds
    if (!module || !box) {
        std::printf("refused: %s\n", (module ? box.fault() : module.fault()).sentence());
        return 1;
    }
    for (auto packed : {"3a1b10c", "99999999a", "1o1k"}) {
        unpack(*module, *box, packed);
        if (!box->reset()) { // whatever happened, the box is as new
            return 1;
        }
    }
}
