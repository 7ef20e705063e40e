// A program that catches what libstdc++ throws, or doesn't. It prints the same natively and by nc-run.

#include <algorithm>
#include <any>
#include <bitset>
#include <cstring>
#include <functional>
#include <iostream>
#include <list>
#include <locale>
#include <map>
#include <memory>
#include <new>
#include <optional>
#include <regex>
#include <sstream>
#include <stdexcept>
#include <string>
#include <system_error>
#include <typeinfo>
#include <variant>
#include <vector>

namespace {

// What a call throws, by its type and what it says.
template <class Call>
void tell(const char *name, Call call) {
    try {
        call();
        std::cout << name << ": nothing\n";
    } catch (const std::exception &what) {
        std::cout << name << ": " << typeid(what).name() << ": " << what.what() << "\n";
    } catch (int what) {
        std::cout << name << ": " << what << "\n";
    }
}

struct Counted {
    static int alive, left;
    Counted() { take(); }
    Counted(const Counted &) { take(); }
    Counted &operator=(const Counted &) = default;
    ~Counted() { alive--; }
    static void take() {
        if (left-- == 0) throw alive;
        alive++;
    }
};
int Counted::alive = 0, Counted::left = -1;

void places() {
    const std::vector<int> numbers{1, 2, 3};
    const std::map<std::string, int> names{{"one", 1}};
    tell("vector::at", [&] { return numbers.at(2); });
    tell("vector::at", [&] { return numbers.at(3); });
    tell("map::at", [&] { return names.at("two"); });
    tell("string::at", [] { return std::string("text").at(4); });
    tell("string::substr", [] { return std::string("text").substr(5); });
    tell("bitset", [] { return std::bitset<8>("01012"); });
    tell("bitset::set", [] { return std::bitset<8>().set(8); });
    tell("vector::reserve", [] { std::vector<int>().reserve(-1); });
    tell("string", [] { return std::string(std::string().max_size() + 1u, 'x'); });
}

void values() {
    tell("stoi", [] { return std::stoi("number"); });
    tell("stoi", [] { return std::stoi("99999999999"); });
    tell("any_cast", [] { return std::any_cast<int>(std::any(1.0)); });
    tell("get", [] { return std::get<1>(std::variant<int, char>(1)); });
    tell("optional", [] { return std::optional<int>().value(); });
    tell("function", [] { std::function<void()>()(); });
    tell("weak_ptr", [] { return std::shared_ptr<int>(std::weak_ptr<int>()); });
    tell("regex", [] { return std::regex("(").mark_count(); });
    tell("system_error", [] { throw std::system_error(ENOENT, std::generic_category(), "a file"); });
    tell("locale", [] { return std::locale("nowhere").name(); });
}

void streams() {
    std::istringstream from("1 two");
    from.exceptions(std::ios::failbit);
    int number = 0;
    tell("istringstream", [&] { from >> number; });
    try {
        from >> number;
    } catch (const std::ios_base::failure &what) {
        std::cout << number << " " << (what.code() == std::io_errc::stream) << " " << from.fail() << "\n";
    }
}

void containers() {
    for (int left = 0; left < 12; left += 3) {
        Counted::left = -1;
        std::vector<Counted> kept(2);
        std::list<Counted> list;
        Counted::left = left;
        tell("vector", [&] { kept.resize(9); });
        tell("list", [&] { list.assign(5, kept[0]); });
        tell("shared", [&] { std::make_shared<Counted>(kept[1]); });
        std::cout << kept.size() << " " << list.size() << " " << Counted::alive << "\n";
    }
    std::cout << Counted::alive << "\n";
}

void algorithms() {
    std::vector<int> numbers(1000);
    for (std::size_t at = 0; at < numbers.size(); at++) numbers[at] = static_cast<int>(at * 7919 % 1009);
    for (int most : {10, 1000, 100000}) {
        int compared = 0;
        tell("sort", [&] {
            std::sort(numbers.begin(), numbers.end(), [&](int one, int other) {
                if (++compared == most) throw compared;
                return one < other;
            });
        });
    }
    tell("for_each", [&] { std::for_each(numbers.begin(), numbers.end(), [](int each) { each == 500 ? throw each : 0; }); });
}

void out_of_range() {
    std::vector<int>().at(1);
}
void runtime_error() {
    throw std::runtime_error("by the program");
}

const struct {
    const char *name;
    void (*function)();
} CASES[] = {{"places", places},
             {"values", values},
             {"streams", streams},
             {"containers", containers},
             {"algorithms", algorithms},
             {"out_of_range", out_of_range},
             {"runtime_error", runtime_error}};

} // namespace

int main(int argc, char **argv) {
    for (const auto &each : CASES) {
        if (argc > 1 && std::strcmp(each.name, argv[1]) == 0) {
            each.function();
            return 0;
        }
    }
    return 2;
}
