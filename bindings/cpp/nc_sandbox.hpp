/*
 * nc_sandbox.hpp: modules, boxes and call-backs of nc_sandbox.h as C++ values.
 *
 * It needs C++17, and neither exceptions nor RTTI. A member makes the call of the library that its comment names. nc_sandbox.h says what
 * that call promises, and what it asks of the host. This header is trusted, as the library is.
 *
 *   Values      Module owns a module, and Box a box. They are moved and never copied. A default-constructed and a moved-from value are
 *               empty and may be used. Their calls are refused. A call of a function then ends with NCS_HOST. A module's code stays until
 *               its last box is gone, so the module may go first.
 *   Untrusted   A number that comes out of a box is an Untrusted<T>, and gives its T only to a check. An address is an At, which only calls
 *               of a box can follow. Ranges of bytes and texts stay bytes, which mean nothing yet. What is made of them is judged where
 *               that is done.
 *   Call-backs  A box keeps its call-backs, with what they capture, until it is destroyed. A call-back that throws ends its call with
 *               NCS_DENIED. The exception is thrown on from Access::call, once no untrusted code is left between.
 *   Threads     One thread at a time uses a Box. Any thread may use a Killer, and any number of them a Module that isn't assigned to. Boxes
 *               beside one another are used by several threads at once. Then their memory changes at any moment, so that it is copied by
 *               get, and nothing is looked at twice where it lies.
 *   Lives       A box is neither destroyed nor assigned to while a call of it is under way. If a call-back does that to its own box, the
 *               box and its call-backs are left behind, and never freed.
 *   Numbers     A type that has another size in a box than here can't be an argument or a result. Such types are pointers and long, and so
 *               size_t, int64_t and uint64_t, which are long here. Say std::uint32_t or long long.
 */
#ifndef NC_SANDBOX_HPP
#define NC_SANDBOX_HPP

#include "nc_host.hpp"
#include "nc_sandbox.h"
#include "nc_sandbox_words.hpp"

#include <exception>
#include <memory>
#include <optional>
#include <string>
#include <string_view>
#include <type_traits>
#include <utility>
#include <vector>

namespace ncs {

using nc::Bytes;
using nc::Span;
using Limits = NcsLimits;

/* ---- Refusals */

class Refusal {
  public:
    Refusal() noexcept = default; /* NCS_OK */
    explicit Refusal(NcsRefusal why) noexcept : why_(why) {}

    std::uint32_t number() const noexcept { return why_.kind; }          /* NCS_BAD_FILE and so on */
    nc::Fault verdict() const noexcept { return nc::Fault(why_.fault); } /* of refused code or a refused change */
    std::uint32_t at() const noexcept { return why_.at; }                /* the address of that fault, or the number of a signal */
    const char *sentence() const noexcept { return why_.sentence; }

  private:
    NcsRefusal why_{NCS_OK, 0, 0, "nothing is refused"};
};

template <class T>
using Result = nc::Result<T, Refusal>;

/* ---- Signals */

namespace detail {

inline Result<void> choose_signals(std::uint32_t how) noexcept {
    NcsRefusal why{};
    return ncs_signals(how, &why) != 0 ? Refusal() : Refusal(why);
}

} // namespace detail

/*
 * NCS_SIGNALS_HELD for a scope, such as one around a run of calls. All signals but the library's own stay blocked in this thread, also in
 * the host's own code and in call-backs. The thread keeps its alternate stack meanwhile. Scopes may be nested. The end of the outermost one
 * is NCS_SIGNALS_BLOCKED, also after a promise. A scope that is refused changes nothing, and calls in it are as safe.
 *
 *     ncs::HeldSignals held;
 *     for (ncs::At picture : pictures) {
 *         show(box.call(draw, picture));
 *     }
 */
class HeldSignals {
  public:
    [[nodiscard]] HeldSignals() noexcept : made_(scopes_ != 0 ? Refusal() : detail::choose_signals(NCS_SIGNALS_HELD)) { scopes_ += ok(); }
    HeldSignals(const HeldSignals &) = delete;
    HeldSignals &operator=(const HeldSignals &) = delete;
    ~HeldSignals() {
        if (ok() && --scopes_ == 0) {
            (void)detail::choose_signals(NCS_SIGNALS_BLOCKED); /* if this is refused, they stay blocked */
        }
    }
    static void *operator new(std::size_t) = delete; /* it ends in the thread in which it began */

    bool ok() const noexcept { return made_.ok(); }
    explicit operator bool() const noexcept { return ok(); }
    [[nodiscard]] Refusal fault() const noexcept { return made_.fault(); }

  private:
    static inline thread_local unsigned scopes_ = 0; /* of this thread, without those that were refused */
    Result<void> made_;
};

/* NCS_SIGNALS_PROMISED for this thread. Nothing is blocked. The host promises that each handler of the process has SA_ONSTACK at any time,
   whoever installs it, and follows no register of its context, and that the thread keeps its alternate stack. While that is untrue, code in
   a box can take over the process. The promise is refused with NCS_BAD_HANDLER while a handler lacks the flag. */
inline Result<void> promise_flags() noexcept {
    return detail::choose_signals(NCS_SIGNALS_PROMISED);
}

/* NCS_SIGNALS_BLOCKED for this thread, which begins so. It takes a promise back. */
inline Result<void> block_signals() noexcept {
    return detail::choose_signals(NCS_SIGNALS_BLOCKED);
}

/* ---- Ends */

/* How a call ended. */
class [[nodiscard]] End {
  public:
    explicit End(NcsEnd end) noexcept : end_(end) {}

    std::uint32_t how() const noexcept { return end_.how; }
    const char *name() const noexcept { return ncs_how(end_.how); } /* ncs_how */
    explicit operator bool() const noexcept { return end_.how == NCS_RETURNED; }

    /* The result of the function, read as a T; 0 if it hasn't returned. An At comes out as it is, and a number as an Untrusted<T>. */
    template <class T>
    detail::Out<T> result() const noexcept {
        const std::uint32_t words[] = {end_.result, end_.high};
        return detail::Out<T>(detail::Word<T>::of(words));
    }

    At place() const noexcept { return At(end_.place); }
    std::uint32_t trap() const noexcept { return end_.trap; }
    At data() const noexcept { return At(end_.data); }
    Untrusted<std::uint32_t> status() const noexcept { return Untrusted<std::uint32_t>(end_.status); }

  private:
    NcsEnd end_;
};

/* ---- Modules */

/* The name of the function in which an address of the code lies, and the distance in bytes from its beginning. The name is null if no
   function is known. */
struct Place {
    const char *name = nullptr;
    std::uint32_t offset = 0;
};

/* Bytes of the address space of code, in whole bundles. */
struct CodeSpan {
    At from;
    std::uint32_t len = 0;
};

/* What Module::hole finds. */
struct Hole {
    At at;                  /* where the hole begins; if `len` is 0, where to ask on, or else the end */
    std::uint32_t len = 0;  /* bytes in which no chunk is */
    std::uint32_t held = 0; /* bytes of deleted chunks below it, from the address that was asked for, which threads still hold back */
};

class Module {
  public:
    Module() noexcept = default;

    /* ncs_module_elf. */
    static Result<Module> elf(Bytes file) noexcept { return made(ncs_module_elf, file); }

    /* ncs_module_code. */
    static Result<Module> code(Bytes code) noexcept { return made(ncs_module_code, code); }

    /* ncs_symbol. */
    At symbol(const char *name) const noexcept { return handle_ != nullptr ? At(ncs_symbol(handle(), name)) : At(); }

    /* ncs_entry. */
    At entry() const noexcept { return handle_ != nullptr ? At(ncs_entry(handle())) : At(); }

    /* ncs_function_at. The name is valid until the module is freed. */
    Place function_at(At at) const noexcept {
        Place place;
        place.name = handle_ != nullptr ? ncs_function_at(handle(), at, &place.offset) : nullptr;
        return place;
    }

    /* ncs_functions. Calls `tell` with an At and a const char *, for each name that function_at may return. It throws nothing. */
    template <class Tell>
    void functions(Tell tell) const noexcept {
        if (handle_ != nullptr) {
            ncs_functions(
                handle(), [](void *user, NcsAt at, const char *name) { (*static_cast<Tell *>(user))(At(at), name); }, &tell);
        }
    }

    /* ncs_function_in. The name is in the file. */
    static Place function_in(Bytes file, At at) noexcept {
        Place place;
        place.name = ncs_function_in(file.data(), file.size(), at, &place.offset);
        return place;
    }

    /* ncs_module_live. The changes may be made by any threads at once. */
    static Result<Module> live(std::uint32_t bundles, std::uint32_t calls) noexcept {
        NcsRefusal why{};
        return told(ncs_module_live(bundles, calls, &why), why);
    }

    /* ncs_module_live_elf. */
    static Result<Module> live_elf(Bytes file, std::uint32_t bundles, std::uint32_t calls) noexcept {
        NcsRefusal why{};
        return told(ncs_module_live_elf(file.data(), file.size(), bundles, calls, &why), why);
    }

    /* ncs_room. */
    CodeSpan room() const noexcept {
        const NcsSpan room = handle_ != nullptr ? ncs_room(handle()) : NcsSpan{};
        return {room.from, room.len};
    }

    /* ncs_hole. A hole is a hint, since another thread may take it. */
    Hole hole(At from, At to) noexcept {
        const NcsHole hole = handle_ != nullptr ? ncs_hole(handle(), from, to) : NcsHole{};
        return {hole.at, hole.len, hole.held};
    }

    /* ncs_create. */
    Result<void> create(At base, Bytes code) noexcept {
        return changed([&](NcsRefusal *why) { return ncs_create(handle(), base, code.data(), code.size(), why); });
    }

    /* ncs_patch. */
    Result<void> patch(At at, Bytes code) noexcept {
        return changed([&](NcsRefusal *why) { return ncs_patch(handle(), at, code.data(), code.size(), why); });
    }

    /* ncs_delete. */
    Result<void> delete_chunk(At base) noexcept {
        return changed([&](NcsRefusal *why) { return ncs_delete(handle(), base, why); });
    }

    /* ncs_reclaim. Returns how many chunks it freed. */
    std::uint32_t reclaim() noexcept { return handle_ != nullptr ? ncs_reclaim(handle()) : 0; }

    NcsModule *handle() const noexcept { return handle_.get(); }

  private:
    struct Free {
        void operator()(NcsModule *module) const noexcept { ncs_module_free(module); }
    };

    static Result<Module> made(NcsModule *(*make)(const void *, std::size_t, NcsRefusal *), Bytes bytes) noexcept {
        NcsRefusal why{};
        return told(make(bytes.data(), bytes.size(), &why), why);
    }
    static Result<Module> told(NcsModule *handle, NcsRefusal why) noexcept {
        Module module;
        module.handle_.reset(handle);
        if (handle == nullptr) {
            return Refusal(why);
        }
        return Result<Module>(std::move(module));
    }

    template <class Change>
    Result<void> changed(Change change) noexcept {
        NcsRefusal why{NCS_NOT_LIVE, 0, 0, "the module is empty"};
        if (handle_ == nullptr || change(&why) == 0) {
            return Refusal(why);
        }
        return Refusal();
    }

    std::unique_ptr<NcsModule, Free> handle_;
};

/* ---- What a box has behind it */

namespace detail {

/* Boxes and killers share it. It is freed by whoever lets go of it last. */
struct Handle {
    NcsBox *box = nullptr;

    Handle() noexcept = default;
    Handle(const Handle &) = delete;
    Handle &operator=(const Handle &) = delete;
    ~Handle() { (void)ncs_free(box); } /* in a forked child nothing is freed */
};

struct Callable {
    Callable() noexcept = default;
    Callable(const Callable &) = delete;
    Callable &operator=(const Callable &) = delete;
    virtual ~Callable() = default;
};

/* It stays where it is while its Box is moved. */
struct State {
    std::shared_ptr<Handle> handle = std::make_shared<Handle>();
    std::vector<std::unique_ptr<Callable>> callables;
    std::exception_ptr thrown; /* by the call-back that returned last, to be thrown on */
    unsigned serving = 0;      /* call-backs that are under way */
};

} // namespace detail

class Box;

/* The calls and the memory that a Box and a Caller give access to. Functions that work on either take an Access &. */
class Access {
  public:
    Access(const Access &) = delete;
    Access &operator=(const Access &) = delete;

    /* ncs_call, with addresses and integers up to 64 bits, which may be untrusted. An exception of a call-back comes out here. */
    template <class... Args>
    End call(At function, Args... args) {
        constexpr unsigned count = (0u + ... + detail::Word<Args>::count);
        static_assert(count <= NCS_ARGS_MAX, "a call has at most 16 arguments of 32 bits");
        std::uint32_t words[count + 1] = {};
        [[maybe_unused]] std::uint32_t *to = words;
        ((to = detail::lay(to, args)), ...);
        return run(function, count, words);
    }

    /* ncs_at. The range is empty unless all of it is the box's. It is valid until the box is destroyed. A call changes its bytes, also one of
       a box beside this one, on another thread. */
    Span<std::uint8_t> bytes(At at, std::size_t len) noexcept {
        void *data = box() != nullptr && len <= NCS_MEMORY_MAX ? ncs_at(box(), at, static_cast<std::uint32_t>(len)) : nullptr;
        return data != nullptr ? Span<std::uint8_t>(static_cast<std::uint8_t *>(data), len) : Span<std::uint8_t>();
    }

    /* ncs_set and ncs_get. They return whether all was copied. If not, nothing was. */
    [[nodiscard]] bool set(At at, Bytes from) noexcept { return set(at, from.data(), from.size()); }
    [[nodiscard]] bool set(At at, std::string_view from) noexcept { return set(at, from.data(), from.size()); }
    [[nodiscard]] bool get(Span<std::uint8_t> to, At at) noexcept { return get(to.data(), at, to.size()); }

    /* ncs_get. Reads an integer, an address or a structure once. Returns nothing unless all of it is the box's. A structure has the layout
       of i386, where no member is aligned to more than 4 bytes. Its members may get any bits, so none may be a bool. */
    template <class T>
    [[nodiscard]] std::optional<detail::Out<T>> get(At at) noexcept {
        if constexpr (std::is_class_v<T> && !detail::is_out<T>) {
            static_assert(std::is_trivially_copyable_v<T>, "a structure of a box is copied byte by byte");
            static_assert(alignof(T) <= 4, "a structure of a box has no member that is aligned to more than 4 bytes");
            T value{};
            return get(&value, at, sizeof value) ? std::optional(Untrusted<T>(value)) : std::nullopt;
        } else {
            std::uint32_t words[2] = {};
            return get(words, at, sizeof(T)) ? std::optional(detail::Out<T>(detail::Word<T>::of(words))) : std::nullopt;
        }
    }

    /* ncs_text. Returns the text, cut to `most` bytes without the 0, or nothing if it leaves the box. */
    std::optional<std::string> text(At at, std::size_t most) {
        std::string to(most < NCS_MEMORY_MAX ? most + 1 : NCS_MEMORY_MAX, '\0');
        long len = box() != nullptr ? ncs_text(box(), to.data(), to.size(), at) : -1;
        if (len < 0) {
            return std::nullopt;
        }
        to.resize(static_cast<std::size_t>(len));
        return to;
    }

    /* ncs_take and ncs_put. They return 0 if there is no room. */
    At take(std::size_t len) noexcept {
        return box() != nullptr && len <= NCS_MEMORY_MAX ? At(ncs_take(box(), static_cast<std::uint32_t>(len))) : At();
    }
    At put(Bytes from) noexcept { return put(from.data(), from.size()); }
    At put(std::string_view from) noexcept { return put(from.data(), from.size()); }

    /* ncs_box_beside. The box has the memory of this one, and another thread may use it at the same time. Its stack grows down from `stack`,
       as in box.beside(box.take(len) + len, 4, 1000). It is used and destroyed as any other box, in any order. */
    Result<Box> beside(At stack, std::uint32_t depth, std::uint32_t milliseconds);

  protected:
    Access() noexcept = default;
    explicit Access(detail::State *state) noexcept : state_(state) {}
    ~Access() = default;

    NcsBox *box() const noexcept { return state_ != nullptr ? state_->handle->box : nullptr; }

    detail::State *state_ = nullptr;

  private:
    /* A call-back may move the box, so this value isn't looked at after the call. */
    End run(At function, unsigned count, const std::uint32_t *words) {
        detail::State *state = state_;
        NcsEnd end{};
        end.how = NCS_HOST;
        if (state != nullptr) {
            end = ncs_call(state->handle->box, function, count, words);
            if (state->thrown != nullptr) {
                std::rethrow_exception(std::exchange(state->thrown, nullptr));
            }
        }
        return End(end);
    }
    bool get(void *to, At at, std::size_t len) noexcept {
        return box() != nullptr && len <= NCS_MEMORY_MAX && ncs_get(box(), to, at, static_cast<std::uint32_t>(len)) != 0;
    }
    bool set(At at, const void *from, std::size_t len) noexcept {
        return box() != nullptr && len <= NCS_MEMORY_MAX && ncs_set(box(), at, from, static_cast<std::uint32_t>(len)) != 0;
    }
    At put(const void *from, std::size_t len) noexcept {
        return box() != nullptr && len <= NCS_MEMORY_MAX ? At(ncs_put(box(), from, static_cast<std::uint32_t>(len))) : At();
    }
};

/* The box whose code made a call-back, for as long as that lasts. */
class Caller : public Access {
  public:
    explicit Caller(detail::State *state) noexcept : Access(state) {}

    /* ncs_deny. */
    void deny() noexcept { ncs_deny(box()); }
};

/* ---- Call-backs */

namespace detail {

template <class F>
struct CallableOf : Callable {
    template <class From>
    CallableOf(State *its_state, From &&from) : state(its_state), function(std::forward<From>(from)) {}

    std::uint64_t answer(const std::uint32_t *args) {
        using Of = SignatureOf<F>;
        Caller caller(state);
        if constexpr (std::is_void_v<decltype(Of::call(function, caller, args))>) {
            Of::call(function, caller, args);
            return 0;
        } else {
            auto value = Of::call(function, caller, args);
            return Word<decltype(value)>::bits(value);
        }
    }

    /* An NcsCallback. No exception may cross the code or the library. */
    static std::uint64_t serve(NcsBox *box, void *user, const std::uint32_t *args) noexcept {
        CallableOf *self = static_cast<CallableOf *>(user);
        State *state = self->state;
        std::uint64_t value = 0;
        (void)box;
        state->serving++;
#ifdef __cpp_exceptions
        try {
            value = self->answer(args);
        } catch (...) {
            state->thrown = std::current_exception();
            ncs_deny(box);
        }
#else
        value = self->answer(args);
#endif
        state->serving--;
        return value;
    }

    State *state;
    F function;
};

} // namespace detail

/* ---- Boxes */

/* A right to end the calls of a box, from any thread. It may be copied, and may outlive the box. */
class Killer {
  public:
    Killer() noexcept = default;

    /* ncs_kill. Returns whether the box was still there. */
    bool kill() const noexcept {
        std::shared_ptr<detail::Handle> handle = handle_.lock();
        if (handle == nullptr) {
            return false;
        }
        ncs_kill(handle->box);
        return true;
    }

  private:
    friend class Box;
    explicit Killer(const std::shared_ptr<detail::Handle> &handle) noexcept : handle_(handle) {}

    std::weak_ptr<detail::Handle> handle_;
};

/* What the code of a box was doing, for whoever looks for a mistake in it. The code can forge all of this. */
struct Trace {
    std::vector<Untrusted<std::uint32_t>> registers; /* EAX, ECX, EDX, EBX, ESP, EBP, ESI and EDI */
    bool is_full = false;                            /* ESP has gone down beyond the memory */
    std::vector<At> calls;                           /* by which the file's code came there, the innermost first */
};

/* Where a box is in the process: the linear addresses of address 0 of its code and of its data, and the file's code by its own. */
struct Linear {
    std::uint32_t code = 0, data = 0;
    CodeSpan file;
};

class Box : public Access {
  public:
    Box() noexcept = default;
    Box(Box &&other) noexcept : Access(std::exchange(other.state_, nullptr)) {}
    Box &operator=(Box &&other) noexcept {
        if (this != &other) {
            give_back();
            state_ = std::exchange(other.state_, nullptr);
        }
        return *this;
    }
    ~Box() { give_back(); } /* ncs_free */

    /* ncs_box_new. */
    static Result<Box> make(const Module &module, const Limits &limits) {
        NcsRefusal why{NCS_BAD_FILE, 0, 0, "the module is empty"};
        return told(module.handle() != nullptr, why, [&] { return ncs_box_new(module.handle(), &limits, &why); });
    }

    /* ncs_callback, with anything that can be called in one way, such as a function, a lambda or a std::function. Its first parameter may
       be a Caller &. The others are the arguments of the code, each an At or an Untrusted integer up to 64 bits. It returns one of
       these, an integer, or nothing. It is called again while it is under way if it calls code that calls back. Returns its address, or 0
       if it isn't given. */
    template <class F>
    At callback(F &&function) {
        using Stored = detail::CallableOf<std::decay_t<F>>;
        constexpr unsigned args = detail::SignatureOf<std::decay_t<F>>::count;
        static_assert(args <= NCS_CALLBACK_ARGS, "a call-back has at most 12 arguments of 32 bits");
        if (box() == nullptr) {
            return At();
        }
        auto stored = std::make_unique<Stored>(state_, std::forward<F>(function));
        Stored *user = stored.get();
        state_->callables.push_back(std::move(stored));
        At at = ncs_callback(box(), Stored::serve, user, args);
        if (!at) {
            state_->callables.pop_back();
        }
        return at;
    }

    /* ncs_code_calls. Returns the address of the first of the four call-backs, or 0 if they aren't given. */
    At code_calls(CodeSpan area) noexcept { return box() != nullptr ? At(ncs_code_calls(box(), {area.from, area.len})) : At(); }

    /* ncs_reset. Returns whether it was done. */
    [[nodiscard]] bool reset() noexcept { return box() != nullptr && ncs_reset(box()) != 0; }

    /* ncs_trace. Returns nothing if the box isn't dead, or if the end has no place in the code. */
    std::optional<Trace> trace() const {
        NcsTrace told{};
        if (box() == nullptr || ncs_trace(box(), &told) == 0) {
            return std::nullopt;
        }
        Trace made{{std::begin(told.reg), std::end(told.reg)}, told.is_full != 0, {}};
        made.calls.assign(told.calls, told.calls + told.count);
        return made;
    }

    /* ncs_linear. */
    Linear linear() const noexcept {
        const NcsLinear told = box() != nullptr ? ncs_linear(box()) : NcsLinear{};
        return {told.code, told.data, {told.file.from, told.file.len}};
    }

    /* A Killer, which ends the calls of this box from any thread. */
    Killer killer() const noexcept { return state_ != nullptr ? Killer(state_->handle) : Killer(); }

    NcsBox *handle() const noexcept { return box(); }

  private:
    friend class Access;

    /* The box that is made if it can be, by a call that writes its refusal to `why`. Nothing is thrown once it is there. */
    template <class Make>
    static Result<Box> told(bool can_be, const NcsRefusal &why, Make make) {
        Box box;
        box.state_ = new detail::State;
        NcsBox *made = can_be ? make() : nullptr;
        box.state_->handle->box = made;
        if (made == nullptr) {
            return Refusal(why);
        }
        return Result<Box>(std::move(box));
    }

    /* Call-backs that are under way are still needed. */
    void give_back() noexcept {
        if (state_ != nullptr && state_->serving == 0) {
            delete state_;
        }
        state_ = nullptr;
    }
};

inline Result<Box> Access::beside(At stack, std::uint32_t depth, std::uint32_t milliseconds) {
    NcsRefusal why{NCS_BAD_LIMITS, 0, 0, "the box is empty"};
    return Box::told(box() != nullptr, why, [&] { return ncs_box_beside(box(), stack, depth, milliseconds, &why); });
}

/* ---- A second wall */

using Folder = NcsFolder;

/* ncs_wall, for this process. The value is what stands, NCS_WALL_FILTER or NCS_WALL_WHOLE. */
inline Result<int> build_wall(Span<const Folder> folders = {}, Span<const int> calls = {}, bool threads = false) noexcept {
    const auto folder_count = static_cast<unsigned>(folders.size()), call_count = static_cast<unsigned>(calls.size());
    const NcsWall wall = {folders.data(), folder_count, calls.data(), call_count, threads};
    NcsRefusal why{};
    const int stands = ncs_wall(&wall, &why);
    if (stands == NCS_NO_WALL) {
        return Refusal(why);
    }
    return stands;
}

} // namespace ncs

#endif
