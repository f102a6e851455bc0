// Has an image converse: conversation IMG [TURNS]
// Standard input is read as the program asks for it, and what that puts out is written before it waits for more. With
// TURNS the run goes by steps of so many turns on a board, as in an event loop, and is fed a line at a time.
#include "geyserpan.hpp"
#include <fstream>
#include <iostream>
#include <iterator>

// By steps. A step never waits: what it asks for is brought between two steps.
static std::uint32_t by_steps(const geyserpan::image &image, std::uint64_t turns)
{
    geyserpan::board_session run(image);
    std::array<char, 64> room;
    std::string line;
    geyserpan::bytes piece(line);
    for (bool last = false;;) {
        const geyserpan::progress made = run.step(turns, piece, last, room);
        piece = piece.behind(made.read);
        std::cout.write(room.data(), static_cast<std::streamsize>(made.written)).flush();
        if (made.state == geyserpan::status::ended)
            return made.exit;
        if (made.state == geyserpan::status::output)
            throw geyserpan::output_too_long(made.state, "more output than is granted");
        if (made.state == geyserpan::status::wants) {
            last = !std::getline(std::cin, line);
            if (!last && !std::cin.eof())
                line += '\n';
            piece = last ? geyserpan::bytes(nullptr, 0) : geyserpan::bytes(line);
        }
    }
}

int main(int count, char **words)
try {
    if (count < 2) {
        std::cerr << "usage: conversation IMG [TURNS]\n";
        return 3;
    }
    std::ifstream file(words[1], std::ios::binary);
    if (!file) {
        std::cerr << "conversation: " << words[1] << ": can't be read\n";
        return 4;
    }
    const std::string data{ std::istreambuf_iterator<char>(file), {} };
    const geyserpan::image image(data, { UINT64_MAX, UINT64_MAX });
    if (count > 2)
        return by_steps(image, std::stoull(words[2])) != 0;
    return geyserpan::filter(image, std::cin, std::cout).exit != 0;
} catch (const std::exception &error) {
    std::cerr << "conversation: " << error.what() << '\n';
    return 2;
}
