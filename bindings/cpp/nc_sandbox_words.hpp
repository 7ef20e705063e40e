/*
 * nc_sandbox_words.hpp: what goes into a box and what comes out, in words of 32 bits. nc_sandbox.hpp includes it.
 */
#ifndef NC_SANDBOX_WORDS_HPP
#define NC_SANDBOX_WORDS_HPP

#include "nc_sandbox.h"

#include <cstdint>
#include <optional>
#include <tuple>
#include <type_traits>
#include <utility>

namespace ncs {

class Caller;

/* ---- Untrusted values */

namespace detail {

/* Whether a is at most b, as numbers of any types. */
template <class A, class B>
constexpr bool is_at_most(A a, B b) noexcept {
    static_assert(std::is_integral_v<A> && std::is_integral_v<B>, "only integers have bounds: say checked");
    if constexpr (std::is_signed_v<A> == std::is_signed_v<B>) {
        return a <= b;
    } else if constexpr (std::is_signed_v<A>) {
        return a < 0 || static_cast<std::make_unsigned_t<A>>(a) <= b;
    } else {
        return b >= 0 && a <= static_cast<std::make_unsigned_t<B>>(b);
    }
}

} // namespace detail

/*
 * A value that came out of a box, as a result, an argument of a call-back, or a word or a structure of its memory. The code in the box may
 * have chosen any value. As an index or a length of the host's it would lead that code out of the box. So an untrusted value isn't a T. It
 * converts to none, and it can't be computed with or compared. It gives its T to a check, or to the word `unchecked`.
 *
 *     std::uint8_t text[64];
 *     auto len = box.call(unpack, out, in).result<std::uint32_t>().at_most(sizeof text);
 *     if (len && box.get({text, *len}, out)) {
 *
 * Without a check it may go back into the box, which has it already, as an argument of a call or the result of a call-back. An At may be
 * made of it too, since the library judges an address at each use. It has the size of a T, and costs nothing.
 */
template <class T>
class [[nodiscard]] Untrusted {
  public:
    constexpr explicit Untrusted(T value) noexcept : value_(value) {}

    /* The value, if the check of it returns true. */
    template <class Check>
    [[nodiscard]] constexpr std::optional<T> checked(Check &&check) const {
        return check(value_) ? std::optional<T>(value_) : std::nullopt;
    }

    /* The number, if it is neither below `least` nor above `most`. Bounds may have any integer types, and are compared as numbers. */
    template <class Least, class Most>
    [[nodiscard]] constexpr std::optional<T> in(Least least, Most most) const noexcept {
        return detail::is_at_most(least, value_) && detail::is_at_most(value_, most) ? std::optional<T>(value_) : std::nullopt;
    }

    /* The number, if it is at most this, as a length is. */
    template <class Most>
    [[nodiscard]] constexpr std::optional<T> at_most(Most most) const noexcept {
        static_assert(std::is_unsigned_v<T>, "a signed number may be negative: say in(0, n)");
        return in(0u, most);
    }

    /* The number, if it is below this, as an index is. */
    template <class End>
    [[nodiscard]] constexpr std::optional<T> below(End end) const noexcept {
        static_assert(std::is_unsigned_v<T>, "a signed number may be negative: say in(0, n)");
        return detail::is_at_most(end, value_) ? std::nullopt : std::optional<T>(value_);
    }

    /* Whether it is this number. */
    template <class Number>
    [[nodiscard]] constexpr bool is(Number number) const noexcept {
        return in(number, number).has_value();
    }

    /* The value without a check. A comment beside the call says why the host may use any value there. */
    [[nodiscard]] constexpr T unchecked() const noexcept { return value_; }

  private:
    T value_;
};

/* ---- Addresses */

/* An address of a box, which the library judges at each use. So it may be made of an untrusted number. 0 is never a good one. */
class At {
  public:
    constexpr At() noexcept = default;
    constexpr explicit At(std::uint32_t at) noexcept : at_(at) {}
    constexpr explicit At(Untrusted<std::uint32_t> at) noexcept : at_(at.unchecked()) {}
    constexpr At(NcsAt at) noexcept : at_(at.at) {}

    /* The address as a number. It is untrusted, since the address may have come out of a box. */
    constexpr Untrusted<std::uint32_t> number() const noexcept { return Untrusted<std::uint32_t>(at_); }
    constexpr operator NcsAt() const noexcept { return NcsAt{at_}; }
    constexpr explicit operator bool() const noexcept { return at_ != 0; }

    /* The address so many bytes further. It wraps at 4 GiB, as addresses of a box do. */
    friend constexpr At operator+(At at, std::uint32_t bytes) noexcept { return At(at.at_ + bytes); }
    friend constexpr bool operator==(At a, At b) noexcept { return a.at_ == b.at_; }
    friend constexpr bool operator!=(At a, At b) noexcept { return a.at_ != b.at_; }
    friend constexpr bool operator<(At a, At b) noexcept { return a.at_ < b.at_; }

  private:
    std::uint32_t at_ = 0;
};

namespace detail {

/* ---- Numbers */

template <class T>
struct Word {
    static constexpr bool is_at = std::is_same_v<T, At>;
    static_assert(!std::is_pointer_v<T>, "a pointer of the host means nothing in a box, whose addresses are At");
    static_assert(is_at || std::is_pointer_v<T> || (std::is_integral_v<T> && sizeof(T) <= 8), "a box has At and integers up to 64 bits");
    static_assert(!std::is_same_v<T, long> && !std::is_same_v<T, unsigned long>,
                  "long has 64 bits here and 32 in a box: say std::uint32_t or long long");

    static constexpr unsigned count = sizeof(T) <= 4 ? 1 : 2;

    /* The lower word comes first. A shorter integer is extended by its sign, as C for i386 does. */
    static std::uint64_t bits(T value) noexcept {
        if constexpr (is_at) {
            return value.number().unchecked();
        } else {
            return static_cast<std::uint64_t>(value);
        }
    }
    static T of(const std::uint32_t *words) noexcept {
        if constexpr (is_at) {
            return At(words[0]);
        } else if constexpr (count == 2) {
            return static_cast<T>(static_cast<std::uint64_t>(words[1]) << 32 | words[0]);
        } else if constexpr (std::is_same_v<T, bool>) {
            return (words[0] & 0xFF) != 0;
        } else {
            return static_cast<T>(words[0]);
        }
    }
};

/* An untrusted number goes in as it came out. */
template <class T>
struct Word<Untrusted<T>> {
    static constexpr unsigned count = Word<T>::count;

    static std::uint64_t bits(Untrusted<T> value) noexcept { return Word<T>::bits(value.unchecked()); }
    static Untrusted<T> of(const std::uint32_t *words) noexcept { return Untrusted<T>(Word<T>::of(words)); }
};

/* The type in which a T comes out of a box. An address is judged by the library at each use, wherever it comes from. */
template <class T>
constexpr bool is_out = std::is_same_v<T, At>;
template <class T>
constexpr bool is_out<Untrusted<T>> = true;
template <class T>
using Out = std::conditional_t<is_out<T>, T, Untrusted<T>>;

/* Writes an argument, and returns the place behind it. */
template <class T>
std::uint32_t *lay(std::uint32_t *to, T value) noexcept {
    std::uint64_t bits = Word<T>::bits(value);
    *to++ = static_cast<std::uint32_t>(bits);
    if (Word<T>::count == 2) {
        *to++ = static_cast<std::uint32_t>(bits >> 32);
    }
    return to;
}

/* Reads an argument, and goes on behind it. */
template <class T>
T next(const std::uint32_t *&from) noexcept {
    const std::uint32_t *words = from;
    from += Word<T>::count;
    return Word<T>::of(words);
}

/* ---- What functions take */

/* The arguments that a function takes from the code. It is an R(Caller &, P...) or an R(P...). */
template <class Function>
struct Signature;

template <class R, class... P>
struct Signature<R(P...)> {
    static_assert((is_out<std::decay_t<P>> && ...), "what code passes to a call-back is untrusted: take ncs::Untrusted<T> or ncs::At");
    static constexpr unsigned count = (0u + ... + Word<std::decay_t<P>>::count);

    template <class F>
    static R call(F &function, Caller &, const std::uint32_t *from) {
        std::tuple<std::decay_t<P>...> values{next<std::decay_t<P>>(from)...};
        (void)from;
        return std::apply(function, std::move(values));
    }
};

template <class R, class... P>
struct Signature<R(Caller &, P...)> {
    static constexpr unsigned count = Signature<R(P...)>::count;

    template <class F>
    static R call(F &function, Caller &caller, const std::uint32_t *from) {
        auto with_caller = [&](auto... values) -> R { return function(caller, values...); };
        return Signature<R(P...)>::call(with_caller, caller, from);
    }
};

/* The signature of a function, or of the one way to call an object. */
template <class F>
struct SignatureOf : SignatureOf<decltype(&F::operator())> {};
template <class R, class... P>
struct SignatureOf<R (*)(P...)> : Signature<R(P...)> {};
template <class R, class... P>
struct SignatureOf<R (*)(P...) noexcept> : Signature<R(P...)> {};
template <class C, class R, class... P>
struct SignatureOf<R (C::*)(P...)> : Signature<R(P...)> {};
template <class C, class R, class... P>
struct SignatureOf<R (C::*)(P...) const> : Signature<R(P...)> {};
template <class C, class R, class... P>
struct SignatureOf<R (C::*)(P...) noexcept> : Signature<R(P...)> {};
template <class C, class R, class... P>
struct SignatureOf<R (C::*)(P...) const noexcept> : Signature<R(P...)> {};

} // namespace detail

} // namespace ncs

#endif
