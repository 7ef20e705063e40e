/*
 * nc_host.hpp: regions, seats and vetted chunks of nc_host.h as C++ values.
 *
 * It needs C++17, and neither exceptions nor RTTI. A member makes the calls of the library that its comment names. nc_host.h says what
 * these promise and what they ask of the host, and docs/EMBEDDING.md lists the host's duties. Nothing is proved about this header. Of the
 * calls without a handle it wraps nc_host_image and nc_host_elf.
 *
 *   Locks     "Under the lock" means that the host holds its own lock for the region. Calls on one region must be made one at a time,
 *             including those that only read, so no member is const. The lock also covers the acts that the host makes for a change. "No
 *             lock" means that the call needs none, as long as one thread at a time uses the value.
 *   Values    Region, Seat and Vetted own a handle. They are moved and never copied. A default-constructed and a moved-from value are
 *             empty and may be used. The library refuses their calls with NC_NO_HANDLE. A destructor frees or leaves, and so does an
 *             assignment before it takes the other handle. For a Region that is a call under the lock, too.
 *   Threads   A value may be passed to another thread, as nc_host.h says about handles.
 *   Buffers   A call that writes acts returns the written part of the buffer. With an empty buffer a creation or a deletion is made, and
 *             its acts aren't reported, as with a length of 0 in nc_host.h. A patch is then refused. Acts that an exception cut short are
 *             made again from the buffer, all of them and before the next change.
 *   Programs  All sources of a program should be compiled in one standard, since spans are std::span only where there is one.
 */
#ifndef NC_HOST_HPP
#define NC_HOST_HPP

#if __cplusplus < 201703L
#error "nc_host.hpp needs C++17"
#endif

#include "nc_host.h"

#include <cstddef>
#include <cstdint>
#include <iterator>
#include <type_traits>
#include <utility>

#if __cplusplus >= 202002L && __has_include(<span>)
#include <span>
#endif

namespace nc {

/* ---- Spans */

#ifdef __cpp_lib_span
template <class T>
using Span = std::span<T>;
#else
/* A pointer and a length, with the members of std::span that this header uses. */
template <class T>
class Span {
  public:
    constexpr Span() noexcept = default;
    constexpr Span(T *data, std::size_t size) noexcept : data_(data), size_(size) {}

    template <std::size_t N>
    constexpr Span(T (&array)[N]) noexcept : data_(array), size_(N) {}

    /* From anything that has data() and size(): an array, a vector, a span of elements that aren't const. */
    template <class Source, class Data = decltype(std::declval<Source &>().data()), class = decltype(std::declval<Source &>().size()),
              class = std::enable_if_t<std::is_convertible_v<std::remove_pointer_t<Data> (*)[], T (*)[]>>>
    constexpr Span(Source &&source) noexcept : data_(source.data()), size_(source.size()) {}

    constexpr T *data() const noexcept { return data_; }
    constexpr std::size_t size() const noexcept { return size_; }
    constexpr bool empty() const noexcept { return size_ == 0; }
    constexpr T *begin() const noexcept { return data_; }
    constexpr T *end() const noexcept { return data_ + size_; }
    constexpr T &operator[](std::size_t index) const noexcept { return data_[index]; }
    constexpr Span first(std::size_t count) const noexcept { return Span(data_, count); }

  private:
    T *data_ = nullptr;
    std::size_t size_ = 0;
};
#endif

using Bytes = Span<const std::uint8_t>;
using Acts = Span<const NcAct>;
using Buffer = Span<NcAct>;
using Segments = Span<const NcSegment>;

/* ---- Faults and results */

/* A fault of nc_host.h, with the other numbers that its call returns. */
class Fault {
  public:
    constexpr Fault() noexcept = default; /* NC_OK */
    constexpr explicit Fault(std::uint32_t number, std::uint32_t at = 0, std::size_t enough = 0) noexcept
        : number_(number), at_(at), enough_(enough) {}

    constexpr std::uint32_t number() const noexcept { return number_; }
    constexpr std::uint32_t at() const noexcept { return at_; }       /* 4 to 7: its address; 56 to 61: its program header; else 0 */
    constexpr std::size_t enough() const noexcept { return enough_; } /* for NC_NO_ROOM a buffer length that is enough, else 0 */
    constexpr const char *name() const noexcept;                      /* "NC_BAD_BASE"; "?" for a number that is no fault */
    constexpr const char *sentence() const noexcept;                  /* "the base is not a multiple of 32, or is below the region" */

  private:
    std::uint32_t number_ = NC_OK;
    std::uint32_t at_ = 0;
    std::size_t enough_ = 0;
};

/* clang-format off */
#define NC_HPP_NAME_OF(fault, sentence) case fault: return #fault;
#define NC_HPP_SENTENCE_OF(fault, sentence) case fault: return sentence;
/* clang-format on */

constexpr const char *Fault::name() const noexcept {
    switch (number_) { NC_FAULTS(NC_HPP_NAME_OF) }
    return "?";
}

constexpr const char *Fault::sentence() const noexcept {
    switch (number_) { NC_FAULTS(NC_HPP_SENTENCE_OF) }
    return "?";
}

#undef NC_HPP_NAME_OF
#undef NC_HPP_SENTENCE_OF

/* Whether a call was refused, and how. `Why` is Fault, or a type of another library. Its number() is 0 if nothing was refused. */
template <class T, class Why = Fault>
class Result;

template <class Why>
class [[nodiscard]] Result<void, Why> {
  public:
    constexpr Result(Why fault) noexcept : fault_(fault) {}

    [[nodiscard]] constexpr bool ok() const noexcept { return fault_.number() == NC_OK; }
    constexpr explicit operator bool() const noexcept { return ok(); }
    [[nodiscard]] constexpr Why fault() const noexcept { return fault_; }

  private:
    Why fault_;
};

/* A value, or the fault for which there is none. If there is a fault, value() is default-constructed, so it is 0, nothing, or empty. */
template <class T, class Why>
class [[nodiscard]] Result : public Result<void, Why> {
  public:
    constexpr Result(T value) noexcept : Result<void, Why>(Why()), value_(std::move(value)) {}
    constexpr Result(Why fault) noexcept : Result<void, Why>(fault) {}

    /* clang-format off */
    constexpr T &value() & noexcept { return value_; }
    constexpr const T &value() const & noexcept { return value_; }
    constexpr T &&value() && noexcept { return std::move(value_); }
    constexpr T &operator*() & noexcept { return value_; }
    constexpr T &&operator*() && noexcept { return std::move(value_); }
    /* clang-format on */
    constexpr T *operator->() noexcept { return &value_; }

  private:
    T value_{};
};

namespace detail {

/* The handle of one value. All zeros are an empty handle, for which `give_back` does nothing. */
template <class Handle, void (*give_back)(Handle *)>
class Owned {
  public:
    Owned() noexcept = default;
    Owned(Owned &&other) noexcept : handle_(std::exchange(other.handle_, Handle{})) {}
    Owned &operator=(Owned &&other) noexcept {
        if (this != &other) {
            give_back(&handle_);
            handle_ = std::exchange(other.handle_, Handle{});
        }
        return *this;
    }
    ~Owned() { give_back(&handle_); }

    Handle *get() noexcept { return &handle_; }

  private:
    Handle handle_{};
};

/* The part of a buffer that a call has written, or its fault. */
inline Result<Acts> written(NcChange change, Buffer acts) noexcept {
    if (change.fault != NC_OK) {
        return Fault(change.fault, change.at, change.count);
    }
    return Acts(acts.first(change.count));
}

/* The value if there is no fault, else the fault. */
template <class T>
Result<T> told(std::uint32_t fault, T value) noexcept {
    if (fault != NC_OK) {
        return Fault(fault);
    }
    return Result<T>(std::move(value));
}

} // namespace detail

/* ---- Code that is loaded once */

/* nc_host_elf. No lock. Returns the part of the buffer with the file's segments. */
inline Result<Segments> loaded_segments(Bytes file, Span<NcSegment> buffer) noexcept {
    NcSegments found = nc_host_elf(file.data(), file.size(), buffer.data(), buffer.size());
    if (found.fault != NC_OK) {
        return Fault(found.fault, found.header, found.count);
    }
    return Segments(buffer.first(found.count));
}

/* nc_host_image. No lock, but no thread may be inside yet. */
inline Result<void> fill_image(std::uint32_t base, Bytes code, Span<std::uint8_t> image) noexcept {
    NcVerdict verdict = nc_host_image(base, code.data(), code.size(), image.data(), image.size());
    return Fault(verdict.fault, verdict.at);
}

/* ---- Seats and vetted chunks */

/* A thread's right to be inside a region, and the report that it is outside. It may outlive the region. Destroying it leaves the seat, so
   that may happen only while the thread is outside for good. */
class Seat {
  public:
    Seat() noexcept = default;

    /* nc_seat_check_in. No lock. The host may call it only while the seat's thread is outside. */
    Result<void> check_in() noexcept { return Fault(nc_seat_check_in(handle_.get())); }

    /* nc_seat_leave. No lock. The host may call it only when the seat's thread is outside for good. The seat is empty afterwards. */
    void leave() noexcept { nc_seat_leave(handle_.get()); }

    NcSeat *handle() noexcept { return handle_.get(); }

  private:
    detail::Owned<NcSeat, nc_seat_leave> handle_;
};

/* A chunk that was vetted without a region. */
class Vetted {
  public:
    Vetted() noexcept = default;

    /* nc_vetted_new. No lock. */
    static Result<Vetted> make(std::uint32_t base, std::uint32_t limit, Bytes code) noexcept {
        Vetted vetted;
        NcVerdict verdict = nc_vetted_new(base, limit, code.data(), code.size(), vetted.handle());
        if (verdict.fault != NC_OK) {
            return Fault(verdict.fault, verdict.at);
        }
        return Result<Vetted>(std::move(vetted));
    }

    NcVetted *handle() noexcept { return handle_.get(); }

  private:
    detail::Owned<NcVetted, nc_vetted_free> handle_;
};

/* ---- Regions */

/* The addresses of a walk, in the buffer that was lent for them, and how it ended: NC_END_STOP and so on. */
struct Walk {
    Span<const std::uint32_t> places;
    std::uint32_t end = 0;
};

/* The chunks of a region, in ascending order, for `for (const NcChunk &chunk : region.chunks())`. Each step is one nc_region_chunk, under
   the lock, which is held for the whole loop. The range may not outlive the region, and no change may come between two steps. */
class Chunks {
  public:
    class Iterator {
      public:
        using iterator_category = std::input_iterator_tag;
        using value_type = NcChunk;
        using difference_type = std::ptrdiff_t;
        using pointer = const NcChunk *;
        using reference = const NcChunk &;

        Iterator() noexcept { chunk_.fault = NC_NO_CHUNK; } /* past the last chunk */
        explicit Iterator(NcRegion *region) noexcept : region_(region), chunk_(nc_region_chunk(region, 0)) {}

        reference operator*() const noexcept { return chunk_; }
        pointer operator->() const noexcept { return &chunk_; }
        Iterator &operator++() noexcept {
            chunk_ = nc_region_chunk(region_, ++index_);
            return *this;
        }
        Iterator operator++(int) noexcept {
            Iterator old = *this;
            ++*this;
            return old;
        }
        friend bool operator==(const Iterator &a, const Iterator &b) noexcept {
            return a.is_past() ? b.is_past() : !b.is_past() && a.index_ == b.index_;
        }
        friend bool operator!=(const Iterator &a, const Iterator &b) noexcept { return !(a == b); }

      private:
        bool is_past() const noexcept { return chunk_.fault != NC_OK; }

        NcRegion *region_ = nullptr;
        std::size_t index_ = 0;
        NcChunk chunk_{};
    };

    explicit Chunks(NcRegion *region) noexcept : region_(region) {}
    Iterator begin() const noexcept { return Iterator(region_); }
    Iterator end() const noexcept { return Iterator(); }

  private:
    NcRegion *region_;
};

/* A deletion between its two steps. Only Region::delete_chunk and Region::resume_delete make one, for the function that makes its acts. */
class Deletion {
  public:
    Deletion(const Deletion &) = delete;
    Deletion &operator=(const Deletion &) = delete;

    /* The acts that the first call wrote; none if its buffer was empty. */
    Acts acts() const noexcept { return acts_; }

    /* nc_region_deletion_runs. Under the lock. */
    Result<Acts> runs(Buffer acts) noexcept { return detail::written(nc_region_deletion_runs(region_, acts.data(), acts.size()), acts); }

  private:
    friend class Region;
    Deletion(NcRegion *region, Acts acts) noexcept : region_(region), acts_(acts) {}

    NcRegion *region_;
    Acts acts_;
};

class Region {
  public:
    Region() noexcept = default;

    /* nc_region_new. No lock. */
    static Result<Region> make(std::uint32_t bundles, std::uint32_t seats) noexcept {
        Region region;
        std::uint32_t fault = nc_region_new(bundles, seats, region.handle());
        return detail::told(fault, std::move(region));
    }

    /* nc_region_seat. Under the lock. */
    Result<Seat> seat() noexcept {
        Seat seat;
        std::uint32_t fault = nc_region_seat(handle(), seat.handle());
        return detail::told(fault, std::move(seat));
    }

    /* nc_region_create. Under the lock. */
    Result<Acts> create(std::uint32_t base, Bytes code, Buffer acts) noexcept {
        return detail::written(nc_region_create(handle(), base, code.data(), code.size(), acts.data(), acts.size()), acts);
    }

    /* nc_region_load. Under the lock. Afterwards the chunk's value is empty. After a refusal it is as it was. */
    Result<Acts> load(Vetted &vetted, Buffer acts) noexcept {
        return detail::written(nc_region_load(handle(), vetted.handle(), acts.data(), acts.size()), acts);
    }

    /* nc_region_patch. Under the lock. */
    Result<Acts> patch(std::uint32_t at, Bytes bytes, Buffer acts) noexcept {
        return detail::written(nc_region_patch(handle(), at, bytes.data(), bytes.size(), acts.data(), acts.size()), acts);
    }

    /* Deletes a chunk, under the lock. It calls nc_region_begin_delete, and then `make(deletion)`, which makes the acts in the host's
       memory. Then it calls nc_region_end_delete, and returns its stamp. If the first call is refused, `make` isn't called. So the last
       call is made once, and after the acts. Only an exception from `make` leaves it out. The region then refuses changes until
       resume_delete, since a stamp that was drawn before the stops are in place would free the span too early. */
    template <class Make>
    Result<std::uint64_t> delete_chunk(std::uint32_t base, Buffer acts, Make &&make) {
        NcChange begun = nc_region_begin_delete(handle(), base, acts.data(), acts.size());
        if (begun.fault != NC_OK) {
            return Fault(begun.fault, begun.at, begun.count);
        }
        return end_delete(acts.first(begun.count), make);
    }

    /* Goes on from the second step of delete_chunk, for a deletion whose `make` threw an exception. Under the lock. The deletion has no
       acts, so `make` asks for the runs. It makes all of them, since those that were made before are stops already. If no deletion is under
       way, the fault is NC_NOT_BEGUN, and `make` isn't called. */
    template <class Make>
    Result<std::uint64_t> resume_delete(Make &&make) {
        NcChange wanted = nc_region_deletion_runs(handle(), nullptr, 0);
        if (wanted.fault != NC_NO_ROOM) {
            return Fault(wanted.fault);
        }
        return end_delete(Acts(), make);
    }

    /* nc_region_creation_runs. Under the lock. */
    Result<Acts> creation_runs(std::uint32_t base, Buffer acts) noexcept {
        return detail::written(nc_region_creation_runs(handle(), base, acts.data(), acts.size()), acts);
    }

    /* nc_region_reclaim. Under the lock. Returns how many chunks were removed. */
    Result<std::uint32_t> reclaim() noexcept {
        NcCount freed = nc_region_reclaim(handle());
        return detail::told(freed.fault, freed.count);
    }

    /* nc_region_chunk. Under the lock. */
    Result<NcChunk> chunk(std::size_t index) noexcept {
        NcChunk chunk = nc_region_chunk(handle(), index);
        return detail::told(chunk.fault, chunk);
    }

    /* nc_region_chunk for one index after the other. Under the lock. */
    Chunks chunks() noexcept { return Chunks(handle()); }

    /* nc_region_chunk_at. Under the lock. */
    Result<NcChunk> chunk_at(std::uint32_t at) noexcept {
        NcChunk chunk = nc_region_chunk_at(handle(), at);
        return detail::told(chunk.fault, chunk);
    }

    /* nc_region_place. Under the lock. */
    Result<NcPlace> place(std::uint32_t at) noexcept {
        NcPlace place = nc_region_place(handle(), at);
        return detail::told(place.fault, place);
    }

    /* nc_region_walk. Under the lock. */
    Result<Walk> walk(std::uint32_t start, Span<const std::uint32_t> choices, Span<std::uint32_t> places) noexcept {
        NcWalk walk = nc_region_walk(handle(), start, choices.data(), choices.size(), places.data(), places.size());
        if (walk.fault != NC_OK) {
            return Fault(walk.fault, 0, walk.count);
        }
        return Walk{places.first(walk.count), walk.end};
    }

    /* nc_region_generation. Under the lock. */
    Result<std::uint64_t> generation() noexcept {
        NcStamp last = nc_region_generation(handle());
        return detail::told(last.fault, last.stamp);
    }

    NcRegion *handle() noexcept { return handle_.get(); }

  private:
    template <class Make>
    Result<std::uint64_t> end_delete(Acts acts, Make &make) {
        Deletion deletion(handle(), acts);
        make(deletion);
        NcStamp drawn = nc_region_end_delete(handle());
        return detail::told(drawn.fault, drawn.stamp);
    }

    detail::Owned<NcRegion, nc_region_free> handle_;
};

/* ---- Acts */

/* A base for visitors that have nothing to do at NC_MARK and NC_BUMP. */
struct PutsOnly {
    void mark(std::uint32_t, std::uint32_t) noexcept {}
    void bump() noexcept {}
};

namespace detail {

/* Whether visit can make an act: whether it knows the kind, and for NC_PUT_RUN the bytes of the bundle. */
inline bool is_known(const NcAct &act, std::uint32_t base, Bytes code) noexcept {
    if (act.kind == NC_PUT_RUN) {
        return act.at >= base && code.size() >= NC_BUNDLE && act.at - base <= code.size() - NC_BUNDLE;
    }
    return act.kind == NC_PUT || act.kind == NC_MARK || act.kind == NC_BUMP || act.kind == NC_SERIALIZE || act.kind == NC_STOP_RUN;
}

/* Calls `put(k)` for each bit k of a run, in ascending order. */
template <class Put>
void visit_run(std::uint32_t bits, Put put) {
    for (std::uint32_t k = 0; bits != 0; k++, bits >>= 1) {
        if (bits & 1) {
            put(k);
        }
    }
}

} // namespace detail

/*
 * Goes through acts in their order, and through the puts of a run one by one. It calls visitor.put(at, byte), visitor.serialize(),
 * visitor.mark(at, length) and visitor.bump(). `code` is the code of the chunk at `base`, and the source of the bytes of NC_PUT_RUN. Only
 * nc_region_creation_runs writes such acts. Returns false, and calls nothing, if nc_host.h doesn't name an act's kind, or if a run needs
 * bytes that `code` doesn't have. It makes no call of the library. The host holds its lock around making the acts.
 */
template <class Visitor>
[[nodiscard]] bool visit(Acts acts, std::uint32_t base, Bytes code, Visitor &&visitor) {
    for (const NcAct &act : acts) {
        if (!detail::is_known(act, base, code)) {
            return false;
        }
    }
    for (const NcAct &act : acts) {
        switch (act.kind) {
        case NC_PUT: visitor.put(act.at, static_cast<std::uint8_t>(act.value)); break;
        case NC_PUT_RUN: detail::visit_run(act.value, [&](std::uint32_t k) { visitor.put(act.at + k, code[act.at - base + k]); }); break;
        case NC_STOP_RUN:
            detail::visit_run(act.value, [&](std::uint32_t k) { visitor.put(act.at + k, static_cast<std::uint8_t>(NC_STOP)); });
            break;
        case NC_SERIALIZE: visitor.serialize(); break;
        case NC_MARK: visitor.mark(act.at, act.value); break;
        default: visitor.bump(); break;
        }
    }
    return true;
}

/* Goes through acts without NC_PUT_RUN, which are those of every call except nc_region_creation_runs. */
template <class Visitor>
bool visit(Acts acts, Visitor &&visitor) {
    return visit(acts, 0, Bytes(), std::forward<Visitor>(visitor));
}

} // namespace nc

#endif
