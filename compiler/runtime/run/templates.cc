/* What the templates of gcc's C++ library call: memory, and functions that throw. Nothing is thrown here: the program says what it would be,
   and ends as by abort. */

#include <nc_run.h>

extern "C" {
void *malloc(unsigned);
void *aligned_alloc(unsigned, unsigned);
void free(void *);
int vsnprintf(char *, unsigned, const char *, __builtin_va_list);
[[noreturn]] void abort();
}

[[noreturn]] static void ends(const char *what, const char *why) {
    const char *const texts[] = {what, ": ", why, "\n"};
    for (const char *text : texts) {
        nc_write(2, text, __builtin_strlen(text));
    }
    abort();
}

namespace std {
enum class align_val_t : unsigned {};
struct nothrow_t {};
extern const nothrow_t nothrow;
const nothrow_t nothrow = {};

/* clang-format off */
#define THROWS(name) [[noreturn]] void __throw_##name() { ends(#name, "no exceptions"); }
THROWS(bad_alloc) THROWS(bad_array_new_length) THROWS(bad_cast) THROWS(bad_exception) THROWS(bad_function_call) THROWS(bad_typeid)
THROWS(bad_weak_ptr)

#define THROWS_TEXT(name) [[noreturn]] void __throw_##name(const char *why) { ends(#name, why); }
THROWS_TEXT(domain_error) THROWS_TEXT(invalid_argument) THROWS_TEXT(ios_failure) THROWS_TEXT(length_error) THROWS_TEXT(logic_error)
THROWS_TEXT(out_of_range) THROWS_TEXT(overflow_error) THROWS_TEXT(range_error) THROWS_TEXT(runtime_error) THROWS_TEXT(underflow_error)
    /* clang-format on */

    [[noreturn]] void __throw_out_of_range_fmt(const char *format, ...) {
    char why[256];
    __builtin_va_list values;
    __builtin_va_start(values, format);
    vsnprintf(why, sizeof why, format, values);
    ends("out_of_range", why);
}
[[noreturn]] void __throw_system_error(int) { ends("system_error", "no exceptions"); }
/* What make_shared compares without RTTI. */
class type_info;
struct _Sp_make_shared_tag {
    static bool _S_eq(const type_info &) noexcept;
};
bool _Sp_make_shared_tag::_S_eq(const type_info &) noexcept { return false; }

[[noreturn]] void __glibcxx_assert_fail(const char *, int, const char *, const char *what) { ends("assertion", what); }
} // namespace std

extern "C" [[noreturn]] void __cxa_pure_virtual() { ends("pure virtual function", "called"); }

static void *taken(void *at) {
    if (!at) {
        std::__throw_bad_alloc();
    }
    return at;
}

static void *aligned(unsigned len, std::align_val_t align) { return aligned_alloc((unsigned)align, len); }

/* A program may define its own. */
#define OWN __attribute__((weak))

OWN void *operator new(unsigned len) { return taken(malloc(len)); }
OWN void *operator new[](unsigned len) { return taken(malloc(len)); }
OWN void *operator new(unsigned len, const std::nothrow_t &) noexcept { return malloc(len); }
OWN void *operator new[](unsigned len, const std::nothrow_t &) noexcept { return malloc(len); }
OWN void *operator new(unsigned len, std::align_val_t align) { return taken(aligned(len, align)); }
OWN void *operator new[](unsigned len, std::align_val_t align) { return taken(aligned(len, align)); }

OWN void operator delete(void *at) noexcept { free(at); }
OWN void operator delete[](void *at) noexcept { free(at); }
OWN void operator delete(void *at, unsigned) noexcept { free(at); }
OWN void operator delete[](void *at, unsigned) noexcept { free(at); }
OWN void operator delete(void *at, const std::nothrow_t &) noexcept { free(at); }
OWN void operator delete[](void *at, const std::nothrow_t &) noexcept { free(at); }
OWN void operator delete(void *at, std::align_val_t) noexcept { free(at); }
OWN void operator delete[](void *at, std::align_val_t) noexcept { free(at); }
OWN void operator delete(void *at, unsigned, std::align_val_t) noexcept { free(at); }
OWN void operator delete[](void *at, unsigned, std::align_val_t) noexcept { free(at); }
