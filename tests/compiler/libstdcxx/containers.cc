/* Containers, iterators and algorithms of the C++ library, and what they print. */

#include <algorithm>
#include <array>
#include <bitset>
#include <deque>
#include <forward_list>
#include <functional>
#include <iostream>
#include <iterator>
#include <list>
#include <map>
#include <memory>
#include <numeric>
#include <queue>
#include <set>
#include <stack>
#include <string>
#include <unordered_map>
#include <unordered_set>
#include <valarray>
#include <vector>

template <class Values>
static void show(const char *name, const Values &values) {
    std::cout << name << ':';
    for (const auto &value : values) {
        std::cout << ' ' << value;
    }
    std::cout << '\n';
}

template <class Pairs>
static void show_pairs(const char *name, const Pairs &pairs) {
    std::cout << name << ':';
    for (const auto &[key, value] : pairs) {
        std::cout << ' ' << key << '=' << value;
    }
    std::cout << '\n';
}

static void in_order() {
    std::map<std::string, int> words;
    for (const char *word : {"the", "cat", "the", "dog", "a", "the"}) {
        words[word]++;
    }
    show_pairs("map", words);
    std::multimap<int, char> many{{2, 'b'}, {1, 'a'}, {2, 'c'}};
    show_pairs("multimap", many);
    std::set<int, std::greater<>> down{5, 3, 9, 1};
    down.erase(3);
    show("set", down);
    std::multiset<int> twice{4, 1, 4};
    std::cout << "multiset: " << twice.count(4) << ' ' << *twice.lower_bound(2) << '\n';
    auto node = words.extract("cat");
    node.key() = "zebra";
    words.insert(std::move(node));
    words.erase("a");
    show_pairs("node", words);
    std::set<int> large;
    for (int i = 0; i < 10000; i++) {
        large.insert(i * 7919 % 10007);
    }
    std::cout << "large: " << large.size() << ' ' << *large.begin() << ' ' << *large.rbegin() << '\n';
}

static void hashed() {
    std::unordered_map<std::string, int> map;
    for (int i = 0; i < 1000; i++) {
        map[std::to_string(i * 7)] = i;
    }
    std::cout << "unordered_map: " << map.size() << ' ' << map.at("700") << ' ' << map.bucket_count() << ' ' << map.count("3") << '\n';
    std::unordered_set<int> set{3, 1, 2, 3};
    std::vector<int> sorted(set.begin(), set.end());
    std::sort(sorted.begin(), sorted.end());
    show("unordered_set", sorted);
    std::unordered_multimap<int, int> multi{{1, 2}, {1, 3}};
    std::cout << "unordered_multimap: " << multi.count(1) << '\n';
    std::cout << "hash: " << std::hash<std::string>()("reed") << ' ' << std::hash<double>()(1.5) << '\n';
}

static void in_sequence() {
    std::list<int> list{3, 1, 2}, other{9, 8};
    list.sort();
    other.reverse();
    list.merge(other);
    show("list", list);
    std::forward_list<int> forward{1, 2, 3};
    forward.reverse();
    show("forward_list", forward);
    std::deque<int> deque;
    for (int i = 0; i < 300; i++) {
        i % 2 ? deque.push_back(i) : deque.push_front(i);
    }
    std::cout << "deque: " << deque.front() << ' ' << deque.back() << ' ' << deque[150] << '\n';
    std::priority_queue<int> queue;
    for (int i : {4, 8, 1}) {
        queue.push(i);
    }
    std::stack<int> stack;
    stack.push(queue.top());
    std::cout << "top: " << stack.top() << '\n';
    std::bitset<40> bits("1011");
    std::cout << "bitset: " << (bits << 3) << ' ' << bits.count() << '\n';
    std::valarray<int> values{1, 2, 3, 4};
    std::cout << "valarray: " << (values * values).sum() << ' ' << std::valarray<int>(values[std::slice(1, 2, 2)]).sum() << '\n';
    std::vector<bool> flags(70, true);
    flags[65] = false;
    std::cout << "vector<bool>: " << std::count(flags.begin(), flags.end(), true) << '\n';
}

static void algorithms() {
    std::vector<int> values(20);
    std::iota(values.begin(), values.end(), -5);
    std::rotate(values.begin(), values.begin() + 7, values.end());
    std::stable_partition(values.begin(), values.end(), [](int i) { return i % 3 == 0; });
    show("partition", values);
    std::nth_element(values.begin(), values.begin() + 10, values.end());
    std::cout << "nth: " << values[10] << '\n';
    std::array<int, 4> order{1, 2, 3, 4};
    int count = 0;
    do {
        count++;
    } while (std::next_permutation(order.begin(), order.end()));
    std::cout << "permutations: " << count << '\n';
    std::vector<std::string> names{"b", "a", "c"};
    std::stable_sort(names.rbegin(), names.rend());
    std::copy(names.begin(), names.end(), std::ostream_iterator<std::string>(std::cout, ","));
    std::cout << '\n';
    auto shared = std::make_shared<std::vector<int>>(3, 7);
    std::weak_ptr<std::vector<int>> weak = shared;
    std::cout << "shared: " << shared.use_count() << ' ' << weak.lock()->size() << '\n';
    shared.reset();
    std::cout << "expired: " << weak.expired() << '\n';
}

int main() {
    in_order();
    hashed();
    in_sequence();
    algorithms();
}
