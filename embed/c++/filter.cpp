// Answers requests by an image that a stranger wrote: filter IMG < REQUESTS
// Each line of standard input is a request, and standard output takes a line for each.
#include "geyserpan.hpp"
#include <fstream>
#include <iostream>
#include <iterator>

int main(int count, char **words)
try {
    if (count < 2) {
        std::cerr << "usage: filter IMG < REQUESTS\n";
        return 3;
    }
    std::ifstream file(words[1], std::ios::binary);
    if (!file) {
        std::cerr << "filter: " << words[1] << ": can't be read\n";
        return 4;
    }
    const std::string data{ std::istreambuf_iterator<char>(file), {} };
    const geyserpan::image image(data, { 100'000, 4096 });
    for (std::string line; std::getline(std::cin, line);)
        std::cout << image.run(line).output << '\n';
    return std::cout.flush() ? 0 : 4;
} catch (const geyserpan::error &error) {
    std::cerr << "filter: " << error.what() << '\n';
    return 2;
}
