/* Files by streams and by std::filesystem, in the folder where the program runs. */

#include <cstdio>
#include <filesystem>
#include <fstream>
#include <iomanip>
#include <iostream>
#include <sstream>
#include <string>

namespace fs = std::filesystem;

static void streams() {
    std::ofstream("made.txt") << "first line\n" << std::setw(5) << 12 << '\n' << 0.25 << '\n';
    std::ofstream("made.txt", std::ios::app) << "added\n";
    std::ifstream in("made.txt");
    std::string line;
    for (int count = 1; std::getline(in, line); count++) {
        std::cout << count << ": " << line << '\n';
    }
    in.clear();
    in.seekg(-6, std::ios::end);
    std::cout << in.tellg() << ' ' << in.rdbuf() << '\n';
    std::fstream both("made.bin", std::ios::in | std::ios::out | std::ios::binary | std::ios::trunc);
    for (int i = 0; i < 100000; i++) {
        both.put(static_cast<char>(i * 31));
    }
    both.seekg(65537);
    std::cout << both.get() << ' ' << both.tellg() << '\n';
    both.seekp(10);
    both.write("here", 4).flush();
    both.seekg(8);
    char seen[8] = {};
    both.read(seen, 7);
    std::cout << (seen + 2) << ' ' << both.gcount() << '\n';
    std::cout << std::ifstream("missing").is_open() << std::ofstream("no/folder").good() << '\n';
    std::wofstream(L"wide.txt" ? "wide.txt" : "") << L"wide " << 5 << L'\n';
    std::cout << std::ifstream("wide.txt").rdbuf();
}

static void paths() {
    const fs::path path = fs::path("a") / "b" / ".." / "file.tar.gz";
    std::cout << path << ' ' << path.filename() << ' ' << path.stem() << ' ' << path.extension() << ' ' << path.lexically_normal() << ' '
              << path.parent_path() << ' ' << path.is_absolute() << ' ' << fs::path("/x/y").lexically_relative("/x/z") << '\n';
    for (const auto &part : path) {
        std::cout << part.string() << '|';
    }
    std::cout << '\n';
}

int main() {
    streams();
    paths();
}
