// Tries embed/c++/geyserpan.hpp, for tests/run embed, with an allocator that counts blocks and refuses growths:
//     wrapped answers ECHO REFUSED LINE   what it gives and refuses; LINE is what the refused image is told by
//     wrapped threads ECHO RUNS           eight threads on one image, and handles that come and go
//     wrapped native ECHO OBJECT OTHER    runs by an object; OTHER is another image's
//     wrapped stops ECHO DEEP             runs that are stopped: by streams that throw, and by refused growths
// The image ECHO hands on its input. What is wrong is told on standard error, with status 1.
#include "geyserpan.hpp"
#include <atomic>
#include <cstdlib>
#include <fstream>
#include <iostream>
#include <iterator>
#include <sstream>
#include <string_view>
#include <thread>

#define HOLDS(what) \
    ((what) ? (void)0 : (std::cerr << __FILE__ << ':' << __LINE__ << ": " #what << std::endl, std::exit(1)))

static std::atomic<long> blocks{ 0 }, asked{ 0 }, refused_growth{ -1 };

static geyserpan_block grown(void *old, std::size_t size)
{
    static char none;
    void *at = asked++ == refused_growth ? nullptr : std::realloc(old, size ? size : 1);
    blocks += at && !old;
    return { at != nullptr, at ? at : &none };
}

extern "C" geyserpan_block rattle_alloc(std::size_t size, std::size_t) { return grown(nullptr, size); }

extern "C" geyserpan_block rattle_realloc(void *at, std::size_t, std::size_t size, std::size_t)
{
    return grown(at, size);
}

extern "C" void rattle_dealloc(void *at)
{
    blocks--;
    std::free(at);
}

// Refuses the growth behind so many, that one alone; none where it is below 0.
static void refuse(long after)
{
    asked = 0;
    refused_growth = after;
}

static const geyserpan::terms most{ UINT64_MAX, UINT64_MAX };

static std::string bytes_of(const char *path)
{
    std::ifstream file(path, std::ios::binary);
    HOLDS(file);
    return { std::istreambuf_iterator<char>(file), {} };
}

// What a call throws of this kind: its words.
template <typename kind, typename call> static std::string thrown(call &&made)
{
    try {
        made();
    } catch (const kind &error) {
        return error.what();
    }
    return "nothing was thrown";
}

// ---- answers

static void refuses(const std::string &data, const std::string &bad, const std::string &line)
{
    using namespace geyserpan;
    HOLDS(thrown<refused>([] { image(""); }) == "image I1");
    HOLDS(thrown<refused>([&] { image of(bad); }) == line && thrown<refused>([&] { check(bad); }) == line);
    try {
        image of(bad);
    } catch (const refused &error) {
        std::ostringstream told;
        told << "refused V" << error.number() << " in function " << error.function() << " at 000" << std::hex
             << std::uppercase << error.address();
        HOLDS(told.str() == line && error.code() == status::refused);
    }
    HOLDS(thrown<refused>([] { assemble("\nfrobnicate %o0\n"); }) == "line 2: S1");
    const image all(data, most);
    const terms few{ 1000, 2, service::exit | service::get };
    const std::string services = "asks for exit, get and put; granted: exit and get";
    HOLDS(thrown<denied>([&] { image of(data, few); }) == services);
    HOLDS(thrown<denied>([&] { all.with(few); }) == services);
    const std::string turns = "asks for 16,030 turns, 1,000 are granted";
    HOLDS(thrown<denied>([&] { image(data, { 1000 }); }) == turns);
    HOLDS(thrown<denied>([&] { all.with({ 1000 }); }) == turns);
    const std::string windows = "no run on 3 windows: 4 to 32, in pieces on a board 8";
    HOLDS(thrown<denied>([&] { all.with({ 100'000, 9, service::all, 3 }); }) == windows);
    HOLDS(thrown<denied>([&] { image(data, { 100'000, 9, service::all, 3 }); }) == windows);
    HOLDS(thrown<denied>([&] { board_session(all.with({ 100'000, 9, service::all, 9 })); }).find("9 windows") == 10);
}

static void limits(const geyserpan::image &all)
{
    using namespace geyserpan;
    const image two = all.with({ 100'000, 2 });
    const std::string words = "puts out more than the 2 bytes that are granted";
    std::string output = "front ";
    HOLDS(thrown<output_too_long>([&] { two.run_into("abc", output); }) == words && output == "front ab");
    std::array<std::uint8_t, 8> room;
    const progress made = board_session(two).step(UINT64_MAX, "abc", true, room);
    HOLDS(made.state == status::output && made.written == 2 && room[1] == 'b');
    HOLDS(two.run("ab").output == "ab" && all.run("abc").output == "abc");
    HOLDS(thrown<std::invalid_argument>([&] { all.run_into(output, output); }).find("overlap") != std::string::npos);
    std::istringstream from("abc");
    std::ostringstream to;
    HOLDS(thrown<output_too_long>([&] { filter(two, from, to); }) == words && to.str() == "ab");
}

static void answers(const std::string &data, const char *bad, const std::string &line)
{
    using namespace geyserpan;
    refuses(data, bytes_of(bad), line);
    image all(data, most);
    limits(all);
    const result made = all.run("abc");
    HOLDS(made.output == "abc" && made.exit == 0 && made.turns > 0 && made.kind() == test::none && made.line() == 0);
    HOLDS(all.facts().budget == 16'030 && all.facts().services == service::all && all.sha256() == sha256(data));
    const std::vector<std::uint8_t> few{ 'a', 'b' };
    HOLDS(all.run(few).output == "ab" && all.run(bytes(few.data(), 1)).output == "a");
    HOLDS(all.matches(std::string_view("c")));
    HOLDS(all.run(std::string(900, 'x')).output == std::string(900, 'x'));
    std::array<std::uint8_t, 900> room;
    HOLDS(board_session(all).step(UINT64_MAX, std::string(900, 'x'), true, room).turns
          == all.run(std::string(900, 'x')).turns);
    image other = std::move(all);
    HOLDS(thrown<std::logic_error>([&] { all.run("abc"); }).find("moved") != std::string::npos);
    all = other.share();
    other = all.with({ 100'000, 1 });
    HOLDS(all.run("abc").output == "abc" && other.terms().output == 1);
    const auto seven = assemble(
        ".services exit\n.function main,leaf,0,0,10\n.fuel 10\n sethi 64,%o0\n or %o0,7,%o0\n ta 0\n");
    const result ended = image(seven).run("");
    HOLDS(ended.exit == 0x10007 && ended.kind() == test::index && ended.line() == 7 && !image(seven).matches(""));
    std::cout << "answers\n";
}

// ---- threads

static void threads(const std::string &data, long runs)
{
    geyserpan::image image(data, most);
    std::vector<std::thread> all;
    for (char first = 'a'; first < 'a' + 8; first++)
        all.emplace_back([&image, first, runs] {
            const std::string given(40, first);
            for (long i = 0; i < runs; i++) {
                HOLDS(image.run(given).output == given);
                geyserpan::session run = image.with({ 100'000, 7 }).session();
                std::array<std::uint8_t, 64> room;
                HOLDS(run.step(UINT64_MAX, given, true, room).state == geyserpan::status::output);
                HOLDS(std::string(room.begin(), room.begin() + 7) == given.substr(0, 7));
                geyserpan::board_session board(image);
                HOLDS(board.step(UINT64_MAX, given, true, room).written == 40 && room[39] == first);
                HOLDS(image.facts().budget == 16'030);
            }
        });
    for (std::thread &it : all)
        it.join();
    std::cout << "threads\n";
}

// ---- stops

struct planned {};

// A stream's end that throws at the call behind so many.
class failing : public std::streambuf {
public:
    failing(std::string text, long at) : text(std::move(text)), at(at) {}
    std::string written;

private:
    int underflow() override
    {
        next();
        if (given == text.size())
            return traits_type::eof();
        setg(&text[given], &text[given], &text[given] + 1);
        given++;
        return traits_type::to_int_type(*gptr());
    }
    std::streamsize xsputn(const char *from, std::streamsize count) override
    {
        next();
        written.append(from, static_cast<std::size_t>(count));
        return count;
    }
    int sync() override
    {
        next();
        return 0;
    }
    void next()
    {
        if (at-- == 0)
            throw planned();
    }
    std::string text;
    std::size_t given = 0;
    long at;
};

// Whether a run between streams of which one throws came to its end.
static bool came_to_its_end(const geyserpan::image &image, long of_source, long of_sink)
{
    failing source(std::string(90, 'a'), of_source), sink("", of_sink);
    std::istream from(&source);
    std::ostream to(&sink);
    from.exceptions(std::ios::badbit);
    to.exceptions(std::ios::badbit);
    try {
        geyserpan::filter(image, from, to);
    } catch (const planned &) {
        return false;
    }
    HOLDS(sink.written == std::string(90, 'a'));
    return true;
}

static long stopped(const std::string &data)
{
    const geyserpan::image image(data, most);
    image.run("abc");
    const long held = blocks;
    long points = 0;
    for (bool of_source : { true, false })
        for (long at = 0; !came_to_its_end(image, of_source ? at : -1, of_source ? -1 : at); at++, points++)
            HOLDS(blocks == held && image.run("abc").output == "abc");
    for (int steps = 0; steps < 50; steps++) {
        geyserpan::session run = image.session();
        std::array<std::uint8_t, 1> room;
        for (int i = 0; i < steps; i++)
            run.step(1, "a", false, room);
    }
    HOLDS(blocks == held && image.run("abc").output == "abc");
    return points;
}

// Refuses each growth of a call in turn, until it asks for no more.
template <typename call> static long each_growth(call &&made)
{
    for (long at = 0;; at++) {
        const long before = blocks;
        refuse(at);
        bool is_whole = true;
        try {
            made();
        } catch (const std::bad_alloc &) {
            is_whole = false;
        }
        const bool was_refused = asked > at;
        refuse(-1);
        HOLDS(blocks == before && is_whole != was_refused);
        if (is_whole)
            return at;
    }
}

// Refuses each growth that the steps of a run ask for: another step goes on, and the output is the same.
static long each_growth_of_steps(const geyserpan::image &image)
{
    const std::string wanted = image.run("").output;
    for (long at = 0;; at++) {
        geyserpan::session run = image.session();
        std::array<char, 7> room;
        std::string output;
        bool was_refused = false;
        refuse(at);
        for (geyserpan::status state = geyserpan::status::paused; state != geyserpan::status::ended;) {
            const geyserpan::progress made = run.step(100'000, "", true, room);
            output.append(room.data(), made.written);
            state = made.state;
            was_refused = was_refused || state == geyserpan::status::memory;
        }
        refuse(-1);
        HOLDS(output == wanted);
        if (!was_refused)
            return at;
    }
}

static void stops(const std::string &data, const std::string &deep)
{
    const long before = blocks;
    long points = stopped(data);
    HOLDS(points > 100 && blocks == before);
    const long growths = each_growth([&] {
        geyserpan::image image(data, most);
        HOLDS(image.run("abc").output == "abc");
        std::istringstream from("abc");
        std::ostringstream to;
        geyserpan::filter(image.share(), from, to);
    });
    const long of_board = each_growth([&] { geyserpan::board_session run{ geyserpan::image(data, most) }; });
    HOLDS(growths > 5 && of_board > growths / 2);
    const long of_steps = each_growth_of_steps(geyserpan::image(deep, most));
    HOLDS(blocks == before);
    std::cout << "stops\n";
    std::cerr << points << " points, " << growths + of_board << " growths, " << of_steps << " of steps\n";
}

// ---- objects of native code

// Whether its runs go by an object: a step of one turn is more than that.
static bool is_native(const geyserpan::image &image)
{
    std::array<char, 8> room;
    return image.session().step(1, "abc", true, room).turns > 1;
}

static void native(const std::string &data, const std::string &object, const std::string &other)
{
    using namespace geyserpan;
    const image plain(data, most), by_object(data, most), shared = by_object.share(), more = by_object.with(most);
    session before = by_object.session();
    HOLDS(!is_native(by_object));
    by_object.native(object);
    HOLDS(is_native(by_object) && is_native(shared) && is_native(more) && !is_native(plain));
    std::array<char, 8> room;
    HOLDS(before.step(1, "abc", true, room).turns <= 1);
    before = by_object.session();
    const result wanted = plain.run(data), came = by_object.run(data);
    HOLDS(wanted.output == came.output && wanted.turns == came.turns && wanted.exit == came.exit);
    for (const auto &[path, code] : { std::pair{ std::string("/nowhere"), status::file },
                                      { std::string(1, '\0') + object, status::file },
                                      { std::string("/"), status::object }, { other, status::object_image } }) {
        try {
            by_object.native(path);
            HOLDS(!"refused");
        } catch (const no_object &error) {
            HOLDS(error.code() == code && *error.what());
        }
        HOLDS(is_native(by_object));
    }
    std::cout << "native\n";
}

int main(int count, char **words)
{
    const std::string_view asked_for = count > 3 ? words[1] : "";
    const std::string data = count > 3 ? bytes_of(words[2]) : "";
    if (asked_for == "answers" && count == 5)
        answers(data, words[3], words[4]);
    else if (asked_for == "native" && count == 5)
        native(data, words[3], words[4]);
    else if (asked_for == "threads")
        threads(data, std::atol(words[3]));
    else if (asked_for == "stops")
        stops(data, bytes_of(words[3]));
    else
        return 3;
    return 0;
}
