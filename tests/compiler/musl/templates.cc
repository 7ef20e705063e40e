// A program that uses the templates of gcc's C++ library. It prints the same natively and by nc-run, but for what would throw.

#include <algorithm>
#include <array>
#include <cmath>
#include <cstdio>
#include <cstring>
#include <memory>
#include <new>
#include <numeric>
#include <optional>
#include <string>
#include <string_view>
#include <tuple>
#include <variant>
#include <vector>

namespace {

void *volatile kept;

struct Counted {
    static inline int alive = 0;
    Counted() { alive++; }
    Counted(const Counted &) { alive++; }
    ~Counted() { alive--; }
};

struct alignas(64) Wide {
    char bytes[64];
};

struct Shape {
    virtual ~Shape() = default;
    virtual double area() const = 0;
};

struct Square : Shape {
    double side;
    explicit Square(double side) : side(side) {}
    double area() const override { return side * side; }
};

void numbers() {
    std::vector<unsigned> values(10000);
    unsigned seed = 1;
    std::generate(values.begin(), values.end(), [&] { return seed = seed * 1664525 + 1013904223; });
    std::sort(values.begin(), values.end());
    const auto place = std::lower_bound(values.begin(), values.end(), 1u << 31) - values.begin();
    std::printf("%d %u\n", (int)place, std::accumulate(values.begin(), values.end(), 0u));
    const std::array<double, 3> sides{3, 4, 5};
    std::printf("%g %d\n", std::hypot(sides[0], sides[1]), (int)std::count_if(sides.begin(), sides.end(), [](double x) { return x > 3; }));
}

void texts() {
    std::string text = "a";
    for (int k = 0; k < 1000; k++) text += std::to_string(k) + (k % 7 == 0 ? "," : "");
    const std::string_view all = text;
    std::printf("%d %d %s\n", (int)text.size(), (int)all.find("999"), text.substr(100, 20).c_str());
    std::vector<std::string> words{"pear", "apple", "fig"};
    std::stable_sort(words.begin(), words.end());
    for (const auto &word : words) std::printf("%s ", word.c_str());
    std::puts("");
}

void objects() {
    {
        std::vector<Counted> many(100);
        many.erase(many.begin(), many.begin() + 40);
        auto shared = std::make_shared<Counted>();
        auto other = shared;
        std::printf("%d %d\n", Counted::alive, (int)shared.use_count());
    }
    const std::unique_ptr<Shape> shape = std::make_unique<Square>(1.5);
    const auto wide = std::make_unique<Wide>();
    const std::variant<int, double> one = 2.5;
    const std::optional<std::tuple<int, char>> two = std::make_tuple(1, 'x');
    std::printf("%d %g %d %g %c\n", Counted::alive, shape->area(), (int)(reinterpret_cast<std::uintptr_t>(wide.get()) % 64),
                std::get<1>(one), std::get<1>(*two));
}

} // namespace

int main(int argc, char **argv) {
    const std::string_view what = argc > 1 ? argv[1] : "";
    if (what == "astray") return (int)std::vector<int>(3).at((std::size_t)argc + 1);
    if (what == "memory") kept = new char[(std::size_t)argc << 29];
    if (what == "nothrow") kept = new (std::nothrow) char[(std::size_t)argc << 29];
    if (what == "nothrow") return kept != nullptr;
    numbers();
    texts();
    objects();
}
