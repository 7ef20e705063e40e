/* Complex numbers, random numbers, clocks, atomic objects and the like of the C++ library, and what they print. */

#include <atomic>
#include <chrono>
#include <cmath>
#include <complex>
#include <iomanip>
#include <iostream>
#include <limits>
#include <memory_resource>
#include <numeric>
#include <random>
#include <ratio>
#include <vector>

static void complex_numbers() {
    const std::complex<double> z(3, -4), w = std::polar(2.0, 0.5);
    std::cout << z << ' ' << std::abs(z) << ' ' << std::norm(z) << ' ' << z * w << ' ' << z / w << ' ' << std::conj(z) << '\n';
    std::cout << std::exp(w) << ' ' << std::log(z) << ' ' << std::sqrt(z) << ' ' << std::sin(w) << ' ' << std::pow(z, 2) << '\n';
    std::complex<float> f(1.5F, 2);
    f *= std::complex<float>(0, 1);
    std::cout << f << ' ' << f / 2.0F << '\n';
}

static void random_numbers() {
    std::mt19937 twister(42);
    std::mt19937_64 wide(42);
    std::minstd_rand linear(7);
    std::cout << twister() << ' ' << wide() << ' ' << linear() << '\n';
    std::uniform_int_distribution<int> die(1, 6);
    std::uniform_real_distribution<double> real(0, 1);
    std::normal_distribution<double> normal(10, 2);
    std::vector<int> faces(7);
    for (int i = 0; i < 6000; i++) {
        faces[die(twister)]++;
    }
    for (int face : faces) {
        std::cout << face << ' ';
    }
    std::cout << real(twister) << ' ' << normal(twister) << '\n';
    std::discrete_distribution<int> weighted{1, 2, 3};
    std::cout << weighted(twister) << weighted(twister) << weighted(twister) << '\n';
}

static void times() {
    using namespace std::chrono;
    const auto span = hours(25) + minutes(61) + milliseconds(1500);
    std::cout << duration_cast<seconds>(span).count() << ' ' << duration<double, std::ratio<86400>>(span).count() << '\n';
    const auto then = system_clock::from_time_t(1660921200);
    std::cout << duration_cast<hours>(then.time_since_epoch()).count() << '\n';
    const auto before = steady_clock::now();
    const bool is_late = system_clock::now() > then;
    std::cout << is_late << (steady_clock::now() >= before) << (high_resolution_clock::now().time_since_epoch().count() > 0) << '\n';
}

struct Triple {
    int a, b, c;
};

static void atoms() {
    std::atomic<int> small(5);
    std::atomic<long long> large(1LL << 40);
    std::atomic<Triple> triple(Triple{1, 2, 3});
    std::atomic<double> real(1.5);
    small += 3;
    large.fetch_add(5);
    large ^= 1;
    long long expected = 0;
    const bool first = large.compare_exchange_strong(expected, 7), second = large.compare_exchange_strong(expected, 7);
    std::cout << small << ' ' << expected << ' ' << first << second << ' ' << large.exchange(9) << large << ' ' << (large -= 20) << '\n';
    triple = Triple{4, 5, 6};
    Triple was = triple.exchange(Triple{7, 8, 9});
    std::cout << was.b << triple.load().c << ' ' << real.load() << ' ' << real.is_lock_free() << small.is_lock_free() << '\n';
    std::atomic_flag flag = ATOMIC_FLAG_INIT;
    std::cout << flag.test_and_set() << flag.test_and_set() << '\n';
}

static void functions() {
    std::cout << std::setprecision(10) << std::tgamma(4.5) << ' ' << std::beta(2, 3) << ' ' << std::riemann_zeta(2) << ' '
              << std::cyl_bessel_j(0, 1.5) << ' ' << std::legendre(3, 0.25) << ' ' << std::hypot(1, 2, 3) << ' ' << std::gcd(84, 36)
              << '\n';
    std::cout << std::numeric_limits<int>::max() << ' ' << std::numeric_limits<double>::epsilon() << ' '
              << std::numeric_limits<float>::digits10 << '\n';
    char buffer[512];
    std::pmr::monotonic_buffer_resource room(buffer, sizeof buffer, std::pmr::null_memory_resource());
    std::pmr::vector<int> values({1, 2, 3}, &room);
    std::cout << std::accumulate(values.begin(), values.end(), 0) << ' ' << (reinterpret_cast<char *>(&values[0]) < buffer + 512) << '\n';
}

int main() {
    complex_numbers();
    random_numbers();
    times();
    atoms();
    functions();
}
