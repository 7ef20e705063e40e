/* Strings, streams, formats, regular expressions and locales of the C++ library, and what they print. */

#include <charconv>
#include <codecvt>
#include <cwchar>
#include <iomanip>
#include <iostream>
#include <iterator>
#include <locale>
#include <regex>
#include <sstream>
#include <string>
#include <string_view>
#include <system_error>

static void strings() {
    std::string text = "The quick brown fox";
    text.replace(4, 5, "slow").append(20, '.').insert(0, "> ");
    std::cout << text << ' ' << text.find("fox") << ' ' << text.rfind('o') << ' ' << text.find_first_not_of("> The") << '\n';
    std::cout << std::stoi("-12") << ' ' << std::stoul("ff", nullptr, 16) << ' ' << std::stod("2.5e3") << ' ' << std::to_string(0.1)
              << '\n';
    std::string_view view = text;
    view.remove_prefix(2);
    std::cout << view.substr(0, 8) << ' ' << view.compare("The") << ' ' << sizeof(std::string) / sizeof(void *) << '\n';
    char digits[40];
    auto [end, fault] = std::to_chars(digits, digits + sizeof digits, 1234567890123LL, 36);
    std::cout << std::string_view(digits, end - digits) << ' ' << (fault == std::errc()) << '\n';
    for (double value : {0.1, 1e300, 123456789.0, -2.5e-7, 5e-324}) {
        end = std::to_chars(digits, digits + sizeof digits, value).ptr;
        double back = 0;
        std::from_chars(digits, end, back);
        std::cout << std::string_view(digits, end - digits) << ' ' << (back == value) << '\n';
    }
    std::wstring wide = L"wide";
    std::cout << std::string(wide.begin(), wide.end()) << ' ' << std::u32string(U"\u00e9t\u00e9").size() << '\n';
}

static void numbers() {
    std::cout << std::hex << std::showbase << 255 << ' ' << std::oct << 8 << std::dec << ' ' << std::setw(8) << std::setfill('*') << 42
              << ' ' << std::left << std::setw(6) << -7 << std::right << std::showpos << 3 << std::noshowpos << '\n';
    for (double value : {0.0, 1.0, 1.5e10, -1e-5, 3.14159265358979, 1e100}) {
        std::cout << value << ' ' << std::fixed << std::setprecision(3) << value << ' ' << std::scientific << value << ' ' << std::hexfloat
                  << value << std::defaultfloat << std::setprecision(6) << '\n';
    }
    std::cout << std::boolalpha << true << ' ' << std::uppercase << std::hex << 0xbeef << std::nouppercase << std::dec << ' '
              << std::quoted("a \"b\"") << '\n';
    std::cout << static_cast<void *>(nullptr) << ' ' << 1234567890123456789LL << ' ' << static_cast<short>(-3) << ' ' << 'c' << '\n';
}

static void reading() {
    std::istringstream in("the cat 12 3.5 0x1f true\n  a line, with words\nlast");
    std::string one, two, line;
    int count = 0, hex = 0;
    double value = 0;
    bool truth = false;
    in >> one >> two >> count >> value >> std::hex >> hex >> std::boolalpha >> truth >> std::ws;
    std::getline(in, line);
    std::cout << one << two << count << ' ' << value << ' ' << hex << truth << " [" << line << "] " << in.peek() << '\n';
    in >> count;
    std::cout << in.fail() << in.eof() << in.good() << '\n';
    in.clear();
    in.seekg(4);
    std::cout << std::string(std::istreambuf_iterator<char>(in), {}).size() << '\n';
    std::stringstream both;
    both << "x=" << 1 << ';';
    both.seekp(2);
    both << 22;
    std::cout << both.str() << ' ' << both.tellp() << '\n';
    std::wostringstream wide;
    wide << L"wide " << 12 << L' ' << 0.5;
    std::wcout.flush();
    std::cout << wide.str().size() << '\n';
}

static void expressions() {
    const std::string text = "2022-08-19, 1999-12-31 and 10-1-1";
    const std::regex date(R"((\d{4})-(\d\d)-(\d\d))");
    for (std::sregex_iterator at(text.begin(), text.end(), date), end; at != end; ++at) {
        std::cout << at->str(3) << '.' << at->str(2) << '.' << at->str(1) << " at " << at->position() << '\n';
    }
    std::cout << std::regex_replace(text, date, "<$2/$1>") << '\n';
    std::cout << std::regex_match("aaab", std::regex("a*b")) << std::regex_match("AB", std::regex("ab", std::regex::icase))
              << std::regex_search("foobar", std::regex("(o|b)+a(?=r)")) << std::regex_match("x\n", std::regex("[[:alpha:]][[:space:]]"))
              << std::regex_search("ab", std::regex("b$", std::regex::extended)) << std::regex_match("abab", std::regex("(ab)\\1")) << '\n';
    const std::regex comma(", *");
    std::copy(std::sregex_token_iterator(text.begin(), text.end(), comma, -1), {}, std::ostream_iterator<std::string>(std::cout, "|"));
    std::cout << '\n';
}

struct Commas : std::numpunct<char> {
    char do_thousands_sep() const override { return ','; }
    std::string do_grouping() const override { return "\3"; }
};

static void locales() {
    const std::locale &classic = std::locale::classic();
    std::cout << classic.name() << ' ' << std::isalpha('x', classic) << std::tolower('Q', classic) << '\n';
    std::ostringstream out;
    out.imbue(std::locale(classic, new Commas));
    out << 1234567 << ' ' << 1e6 << ' ' << std::put_money("12345") << ' ';
    std::tm when{};
    when.tm_year = 122, when.tm_mon = 7, when.tm_mday = 19, when.tm_hour = 15, when.tm_wday = 5, when.tm_yday = 230;
    out << std::put_time(&when, "%Y-%m-%d %H:%M:%S %a %b");
    std::cout << out.str() << '\n';
    std::istringstream in("2021-02-03 1,234");
    in.imbue(std::locale(classic, new Commas));
    int count = 0;
    in >> std::get_time(&when, "%Y-%m-%d") >> count;
    std::cout << when.tm_year << ' ' << when.tm_mon << ' ' << when.tm_mday << ' ' << count << '\n';
    std::wstring_convert<std::codecvt_utf8<char32_t>, char32_t> utf8;
    std::cout << utf8.to_bytes(U"\u00e9\U0001F600") << ' ' << utf8.from_bytes("\xc3\xa9").size() << '\n';
    std::cout << std::make_error_code(std::errc::no_such_file_or_directory).message() << ' '
              << std::generic_category().default_error_condition(2).value() << '\n';
}

int main() {
    strings();
    numbers();
    reading();
    expressions();
    locales();
}
