// What the tests of nc_sandbox.hpp share: checks, whose failures are printed with their lines, and the module that a file makes.
#ifndef CHECKS_HPP
#define CHECKS_HPP

#include "nc_sandbox.hpp"

#include <cstdio>
#include <cstdlib>
#include <fstream>
#include <iterator>
#include <vector>

#define CHECK(condition) checks::check((condition) ? true : false, #condition, __LINE__)

namespace checks {

constexpr int SKIPPED = 77;

inline int failures;

inline void check(bool holds, const char *condition, int line) {
    if (!holds) {
        std::printf("line %d: FAILED: %s\n", line, condition);
        failures++;
    }
}

inline std::vector<char> read_file(const char *path) {
    std::ifstream in(path, std::ios::binary);
    return {std::istreambuf_iterator<char>(in), {}};
}

inline ncs::Bytes bytes_of(const char *text, std::size_t len) {
    return {reinterpret_cast<const std::uint8_t *>(text), len};
}

inline ncs::Bytes bytes_of(const std::vector<char> &file) {
    return bytes_of(file.data(), file.size());
}

// The module, or the end of the program.
inline ncs::Module must(ncs::Result<ncs::Module> made) {
    if (!made) {
        std::printf("%s: boxes: %s\n", made.fault().number() == NCS_BAD_SYSTEM ? "skipped" : "refused", made.fault().sentence());
        std::exit(made.fault().number() == NCS_BAD_SYSTEM ? SKIPPED : 2);
    }
    return std::move(made).value();
}

// The status of the program.
inline int end() {
    if (failures == 0) {
        std::printf("nc_sandbox.hpp: all as it should be\n");
    }
    return failures != 0;
}

} // namespace checks

#endif
