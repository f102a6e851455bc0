// C++ over geyserpan.h, from C++17 on: images that threads share, handles that end themselves, failures as exceptions.
//
//     geyserpan::image image(bytes, { 100000 });     // verified here, once; 100,000 turns are granted
//     geyserpan::result result = image.run("HAL");   // result.output is "IBM"
//     geyserpan::filter(image, std::cin, std::cout); // a run over streams
//
// A const image may be used by any threads at once. A run is a function of image, input and terms, turns included: run
// it again, or twice, anywhere. It is made on the engine, or by an object of native code where the image was given one;
// a `board_session` has a board.
#ifndef GEYSERPAN_HPP
#define GEYSERPAN_HPP
#include "geyserpan.h"
#include <algorithm>
#include <array>
#include <cstddef>
#include <cstdint>
#include <cstring>
#include <functional>
#include <istream>
#include <memory>
#include <mutex>
#include <new>
#include <ostream>
#include <stdexcept>
#include <string>
#include <type_traits>
#include <utility>
#include <vector>

namespace geyserpan {

// ---- what goes in and comes out

enum class status : std::uint32_t {
    ok = GEYSERPAN_OK,
    no_image = GEYSERPAN_NO_IMAGE,
    refused = GEYSERPAN_REFUSED,
    memory = GEYSERPAN_MEMORY,
    windows = GEYSERPAN_WINDOWS,
    services = GEYSERPAN_SERVICES,
    turns = GEYSERPAN_TURNS,
    room = GEYSERPAN_ROOM,
    ended = GEYSERPAN_ENDED,
    wants = GEYSERPAN_WANTS,
    full = GEYSERPAN_FULL,
    paused = GEYSERPAN_PAUSED,
    handle = GEYSERPAN_HANDLE,
    source = GEYSERPAN_SOURCE,
    output = GEYSERPAN_OUTPUT,
    lost = GEYSERPAN_LOST,
    file = GEYSERPAN_FILE,
    object = GEYSERPAN_OBJECT,
    object_abi = GEYSERPAN_OBJECT_ABI,
    object_image = GEYSERPAN_OBJECT_IMAGE,
    object_counts = GEYSERPAN_OBJECT_COUNTS
};

// What a program may ask its host for; a sum by `|`.
enum class service : std::uint32_t {
    none = 0,
    exit = GEYSERPAN_EXIT,
    get = GEYSERPAN_GET,
    put = GEYSERPAN_PUT,
    all = GEYSERPAN_ALL_SERVICES
};

constexpr service operator|(service one, service other)
{
    return static_cast<service>(static_cast<std::uint32_t>(one) | static_cast<std::uint32_t>(other));
}

constexpr service operator&(service one, service other)
{
    return static_cast<service>(static_cast<std::uint32_t>(one) & static_cast<std::uint32_t>(other));
}

// By which test of the front end's a run of a program from C ended.
enum class test : std::uint32_t {
    none = GEYSERPAN_TEST_NONE,
    index = GEYSERPAN_TEST_INDEX,
    pointer = GEYSERPAN_TEST_POINTER,
    divisor = GEYSERPAN_TEST_DIVISOR,
    loops = GEYSERPAN_TEST_LOOPS,
    depth = GEYSERPAN_TEST_DEPTH,
    call = GEYSERPAN_TEST_CALL
};

// What a host grants: turns, bytes of output, services, and on how many register windows turns are counted, 4 to 32.
struct terms {
    std::uint64_t turns = 1'000'000, output = 65'536;
    service services = service::all;
    std::uint32_t windows = 8;
};

// What an image declares and is made of.
struct facts {
    std::uint64_t budget;
    service services;
    std::uint32_t version, words, data_bytes, stack_pages, functions, depth;
};

// How a run ended. Any program may end with the word of a test.
struct report {
    std::uint32_t exit;
    std::uint64_t turns;

    test kind() const { return static_cast<test>(geyserpan_exit_kind(exit)); }
    std::uint32_t line() const { return kind() == test::none ? 0 : exit & 0xFFFF; }
};

struct result : report {
    std::string output;
};

// What a step did: the bytes of the piece that it read, those that it wrote to the front of the room, the turns of the
// run so far, and the exit word, 0 but with `ended`.
struct progress {
    status state;
    std::size_t read, written;
    std::uint64_t turns;
    std::uint32_t exit;
};

// Bytes: a pointer and a length, or what has both, as std::string, std::string_view, std::vector and std::span.
template <typename byte> class view {
    template <typename range>
    using element = std::remove_pointer_t<decltype(std::declval<range &>().data() + std::declval<range &>().size())>;

public:
    view(byte *at, std::size_t length) : at(length ? at : none()), length(length) {}
    template <typename range,
              typename = std::enable_if_t<sizeof(element<range>) == 1 && std::is_trivially_copyable_v<element<range>>
                                          && (std::is_const_v<byte> || !std::is_const_v<element<range>>)>>
    view(range &&of) : view(reinterpret_cast<byte *>(of.data()), of.size())
    {
    }
    template <typename text = byte, typename = std::enable_if_t<std::is_const_v<text>>>
    view(const char *of) : view(reinterpret_cast<byte *>(of), std::strlen(of))
    {
    }

    byte *data() const { return at; }
    std::size_t size() const { return length; }
    view behind(std::size_t count) const { return { at + count, length - count }; }

private:
    // no pointer is null, that of no bytes either
    static byte *none()
    {
        static std::remove_const_t<byte> one;
        return &one;
    }
    byte *at;
    std::size_t length;
};
using bytes = view<const std::uint8_t>;
using room = view<std::uint8_t>;

// ---- failures; where memory is refused it is std::bad_alloc

class error : public std::runtime_error {
public:
    error(status code, const std::string &text, const geyserpan_why &why = {})
        : std::runtime_error(text), told(code), numbers(why)
    {
    }
    status code() const noexcept { return told; }
    // Of a rule its number, in this function at this address; of a source the cause, at this line, as address.
    std::uint32_t number() const noexcept { return numbers.number; }
    std::uint32_t function() const noexcept { return numbers.function; }
    std::uint32_t address() const noexcept { return numbers.address; }

private:
    status told;
    geyserpan_why numbers;
};

// The bytes are no image, the image breaks a rule, or the source has a fault.
class refused : public error {
    using error::error;
};

// The image asks for more turns or services than are granted, or there is no such count of windows.
class denied : public error {
    using error::error;
};

// The file is no object of native code for this image.
class no_object : public error {
    using error::error;
};

// The run puts out more than is granted.
class output_too_long : public error {
    using error::error;
};

namespace detail {

inline geyserpan_terms in_c(const terms &of)
{
    return { of.turns, of.output, static_cast<std::uint32_t>(of.services), of.windows };
}

inline facts of_c(const geyserpan_facts &told)
{
    return { told.budget,     static_cast<service>(told.services), told.version,   told.words,
             told.data_bytes, told.stack_pages,                    told.functions, told.depth };
}

[[noreturn]] inline void refuse(std::uint32_t answer, const geyserpan_why &why = {})
{
    if (answer == GEYSERPAN_MEMORY)
        throw std::bad_alloc();
    std::uint8_t text[96];
    const std::size_t length = geyserpan_why_text(answer, &why, text, sizeof text);
    const std::string words(text, text + length);
    if (answer >= GEYSERPAN_FILE)
        throw no_object(static_cast<status>(answer), words);
    throw refused(static_cast<status>(answer), words, why);
}

// With what the image asks for and what is granted.
[[noreturn]] inline void deny(std::uint32_t answer, const geyserpan_facts &asked, const terms &of)
{
    if (answer == GEYSERPAN_MEMORY)
        throw std::bad_alloc();
    std::uint8_t text[96];
    const geyserpan_terms granted = in_c(of);
    const std::size_t length = geyserpan_terms_text(answer, &asked, &granted, text, sizeof text);
    const std::string words(text, text + length);
    if (answer == GEYSERPAN_OUTPUT)
        throw output_too_long(status::output, words);
    throw denied(static_cast<status>(answer), words);
}

inline void check(std::uint32_t answer)
{
    if (answer != GEYSERPAN_OK)
        refuse(answer);
}

// Whether two ranges have a byte in common.
inline bool overlap(bytes one, bytes other)
{
    const std::less<const std::uint8_t *> before;
    return one.size() && other.size() && before(one.data(), other.data() + other.size())
        && before(other.data(), one.data() + one.size());
}

inline void keep_apart(bytes one, bytes other)
{
    if (overlap(one, other))
        throw std::invalid_argument("geyserpan: what is read and what is written overlap");
}

// A handle that ends itself. It may be moved, and one that was moved from holds none.
template <typename handle_type, auto make, auto let_go> class owned {
public:
    owned() { check(make(&handle)); }
    owned(owned &&other) noexcept : handle(std::exchange(other.handle, {})) {}
    owned &operator=(owned &&other) noexcept
    {
        std::swap(handle, other.handle);
        return *this;
    }
    ~owned()
    {
        if (handle.at)
            let_go(handle);
    }
    handle_type *get()
    {
        if (!handle.at)
            throw std::logic_error("geyserpan: it was moved");
        return &handle;
    }

private:
    handle_type handle = {};
};
using image_handle = owned<geyserpan_image, geyserpan_image_new, geyserpan_image_free>;
using engine_handle = owned<geyserpan_engine, geyserpan_engine_new, geyserpan_engine_free>;
using board_handle = owned<geyserpan_run, geyserpan_run_new, geyserpan_run_free>;

// What a run has for itself: a handle that shares the image, as it was behind so many changes, and one of the run.
struct pair {
    image_handle image;
    engine_handle engine;
    unsigned long changes = 0;
};

// An image that was verified once, for each `image` on it.
class opened {
public:
    opened(bytes data, const terms &of)
    {
        const geyserpan_terms granted = in_c(of);
        geyserpan_why why = {};
        const std::uint32_t answer = geyserpan_open(handle.get(), data.data(), data.size(), &granted, &why);
        if (answer == GEYSERPAN_SERVICES || answer == GEYSERPAN_TURNS)
            check(geyserpan_check(data.data(), data.size(), &facts, &why));
        if (answer == GEYSERPAN_SERVICES || answer == GEYSERPAN_TURNS || answer == GEYSERPAN_WINDOWS)
            deny(answer, facts, of);
        if (answer != GEYSERPAN_OK)
            refuse(answer, why);
        check(geyserpan_facts_of(handle.get(), &facts));
        check(geyserpan_sha256(data.data(), data.size(), name.data(), name.size()));
        idle.reserve(most); // so that `give` never asks for memory
    }

    // Handles for a run: those of an earlier one, or new ones.
    pair take()
    {
        const std::lock_guard<std::mutex> lock(mutex);
        if (idle.empty()) {
            pair made;
            check(geyserpan_image_share(handle.get(), made.image.get()));
            made.changes = changes;
            return made;
        }
        pair taken = std::move(idle.back());
        idle.pop_back();
        return taken;
    }

    // Takes them back, without the run.
    void give(pair taken) noexcept
    {
        geyserpan_engine_end(taken.engine.get());
        const std::lock_guard<std::mutex> lock(mutex);
        if (idle.size() < most && taken.changes == changes)
            idle.push_back(std::move(taken));
    }

    // Has the runs that are begun from now on go by an object.
    void go_by(const char *path)
    {
        const std::lock_guard<std::mutex> lock(mutex);
        check(geyserpan_native(handle.get(), path));
        changes++;
        idle.clear();
    }

    geyserpan_facts facts = {};
    std::array<std::uint8_t, 32> name = {};

private:
    static constexpr std::size_t most = 64;
    std::mutex mutex; // guards what stands below it
    image_handle handle;
    std::vector<pair> idle;
    unsigned long changes = 0; // how often the handle was given an object
};

// Handles that a run has until it goes.
class lease {
public:
    explicit lease(std::shared_ptr<opened> from) : of(std::move(from)), taken(of->take()) {}
    lease(lease &&) noexcept = default;
    lease &operator=(lease &&other) noexcept
    {
        std::swap(of, other.of);
        std::swap(taken, other.taken);
        return *this;
    }
    ~lease()
    {
        if (of)
            of->give(std::move(taken));
    }
    const geyserpan_facts &facts() const { return of->facts; }
    geyserpan_image *image() { return taken.image.get(); }
    geyserpan_engine *engine() { return taken.engine.get(); }

private:
    std::shared_ptr<opened> of;
    pair taken;
};

inline progress told(std::uint32_t answer, const geyserpan_done &done)
{
    return { static_cast<status>(answer), static_cast<std::size_t>(done.read), static_cast<std::size_t>(done.written),
             done.turns, done.exit };
}

} // namespace detail

// ---- runs in pieces, each used by one thread at a time

// On the engine.
class session {
public:
    session(detail::lease from, const terms &of) : held(std::move(from)), granted(of)
    {
        const geyserpan_terms given = detail::in_c(granted);
        if (std::uint32_t answer = geyserpan_engine_begin_with(held.engine(), held.image(), &given))
            detail::deny(answer, held.facts(), granted);
    }

    // Goes on for at most so many turns with the next piece of the input, behind which there is none where `last` is
    // set: ended, wants, full, paused; output, where all that is granted is written and there is more; memory, which
    // was refused, and behind which another step goes on. What was read and written stands with each.
    progress step(std::uint64_t turns, bytes piece, bool last, room into)
    {
        detail::keep_apart(piece, into);
        geyserpan_done done = {};
        const std::uint32_t answer = geyserpan_engine_step(held.engine(), turns, piece.data(), piece.size(), last,
                                                           into.data(), into.size(), &done);
        return detail::told(answer, done);
    }

    // Throws what a status of a step means, where it is output, memory, or none of a step's.
    void check(status of) const
    {
        if (of != status::ended && of != status::wants && of != status::full && of != status::paused)
            detail::deny(static_cast<std::uint32_t>(of), held.facts(), granted);
    }

private:
    detail::lease held;
    terms granted;
};

// An image that was verified, and the terms of its runs.
class image {
public:
    explicit image(bytes data, const geyserpan::terms &of = {}) : granted(of)
    {
        if (geyserpan_abi() != GEYSERPAN_ABI)
            throw std::runtime_error("geyserpan: the library has another ABI than its header");
        opened = std::make_shared<detail::opened>(data, of);
    }
    image(image &&) noexcept = default;
    image &operator=(image &&) noexcept = default;

    // The same image on other terms, as a tenant's own, or on these. It isn't verified again.
    image with(const geyserpan::terms &of) const
    {
        geyserpan::session(lease(), of);
        return image(opened, of);
    }
    image share() const { return image(held(), granted); }

    // Has the runs that are begun from now on, of each `image` that shares this one, go by the shared object that
    // `native build` made of it. It is run in this process: load what you built yourself. Throws no_object.
    void native(const std::string &path) const
    {
        if (path.find('\0') != std::string::npos)
            detail::refuse(GEYSERPAN_FILE);
        held()->go_by(path.c_str());
    }

    geyserpan::facts facts() const { return detail::of_c(held()->facts); }
    const std::array<std::uint8_t, 32> &sha256() const { return held()->name; }
    const geyserpan::terms &terms() const { return granted; }

    // Begins a run in pieces.
    geyserpan::session session() const { return geyserpan::session(lease(), granted); }

    // Runs it to its end on an input.
    result run(bytes input) const
    {
        result made = {};
        static_cast<report &>(made) = run_into(input, made.output);
        return made;
    }

    // The same, with the output behind what the string has, also what was put out until an exception.
    report run_into(bytes input, std::string &output) const
    {
        detail::keep_apart(input, output);
        geyserpan::session run = session();
        for (std::size_t used = output.size();;) {
            output.resize(used + std::max<std::size_t>(256, used));
            const progress made = run.step(UINT64_MAX, input, true, room(output).behind(used));
            used += made.written;
            input = input.behind(made.read);
            output.resize(used);
            run.check(made.state);
            if (made.state == status::ended)
                return { made.exit, made.turns };
        }
    }

    bool matches(bytes input) const { return run(input).exit == 0; }

private:
    friend class board_session;
    image(std::shared_ptr<detail::opened> from, const geyserpan::terms &of) : granted(of), opened(std::move(from)) {}
    const std::shared_ptr<detail::opened> &held() const
    {
        if (!opened)
            throw std::logic_error("geyserpan: the image was moved");
        return opened;
    }
    detail::lease lease() const { return detail::lease(held()); }

    geyserpan::terms granted;
    std::shared_ptr<detail::opened> opened;
};

// On a board of 8 windows, which is used again by `begin`.
class board_session {
public:
    explicit board_session(const image &of) { begin(of); }

    // Begins a run; the one before is given up.
    void begin(const image &of)
    {
        detail::lease mine = of.lease();
        const geyserpan_terms given = detail::in_c(of.granted);
        if (std::uint32_t answer = geyserpan_begin_with(board.get(), mine.image(), &given))
            detail::deny(answer, mine.facts(), of.granted);
    }

    // As `session::step`; it never takes memory.
    progress step(std::uint64_t turns, bytes piece, bool last, room into)
    {
        detail::keep_apart(piece, into);
        geyserpan_done done = {};
        const std::uint32_t answer = geyserpan_step(board.get(), turns, piece.data(), piece.size(), last, into.data(),
                                                    into.size(), &done);
        return detail::told(answer, done);
    }

private:
    detail::board_handle board;
};

// ---- streams

namespace detail {

// Waits for a byte of a stream, and takes those that are there with it: how many there are, 0 at its end.
inline std::size_t read_some(std::istream &from, char *into, std::size_t size)
{
    const int first = from.get();
    if (from.bad())
        throw std::ios_base::failure("geyserpan: the input");
    if (first == std::istream::traits_type::eof())
        return 0;
    *into = std::istream::traits_type::to_char_type(first);
    return 1 + static_cast<std::size_t>(from.readsome(into + 1, static_cast<std::streamsize>(size - 1)));
}

} // namespace detail

// Runs an image over streams, in memory that doesn't grow: reads as it asks, and has written and flushed what it puts
// out before it reads on. A stream that fails is std::ios_base::failure.
inline report filter(const image &of, std::istream &from, std::ostream &to)
{
    session run = of.session();
    std::array<char, 8192> read, written;
    bytes piece(nullptr, 0);
    for (bool last = false;;) {
        const progress made = run.step(UINT64_MAX, piece, last, written);
        piece = piece.behind(made.read);
        if (made.written && !to.write(written.data(), static_cast<std::streamsize>(made.written)).flush())
            throw std::ios_base::failure("geyserpan: the output");
        run.check(made.state);
        if (made.state == status::ended)
            return { made.exit, made.turns };
        if (made.state == status::wants) {
            const std::size_t count = detail::read_some(from, read.data(), read.size());
            piece = bytes(reinterpret_cast<const std::uint8_t *>(read.data()), count);
            last = count == 0;
        }
    }
}

// ---- without a handle

// The verdict on the bytes of an image, whatever it asks for.
inline facts check(bytes data)
{
    geyserpan_facts told;
    geyserpan_why why = {};
    if (std::uint32_t answer = geyserpan_check(data.data(), data.size(), &told, &why))
        detail::refuse(answer, why);
    return detail::of_c(told);
}

// The image that a source of the sandbox's language means.
inline std::vector<std::uint8_t> assemble(bytes source)
{
    std::vector<std::uint8_t> image(4096);
    for (;;) {
        std::uint64_t needed = 0;
        geyserpan_why why = {};
        const std::uint32_t answer = geyserpan_assemble(source.data(), source.size(), image.data(), image.size(),
                                                        &needed, &why);
        if (answer != GEYSERPAN_OK && answer != GEYSERPAN_ROOM)
            detail::refuse(answer, why);
        image.resize(needed);
        if (answer == GEYSERPAN_OK)
            return image;
    }
}

// The name of an image: the SHA-256 of its bytes.
inline std::array<std::uint8_t, 32> sha256(bytes data)
{
    std::array<std::uint8_t, 32> name;
    detail::check(geyserpan_sha256(data.data(), data.size(), name.data(), name.size()));
    return name;
}

inline std::string version()
{
    std::uint8_t text[32];
    return std::string(text, text + geyserpan_version(text, sizeof text));
}

} // namespace geyserpan
#endif
