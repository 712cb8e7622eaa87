// Calls the library from C++: a heap in vectors, and a fault as an exception.
//
//     c++ -o collect collect.cpp $(pkg-config --cflags --libs pcompact) && ./collect
#include <cstdint>
#include <iostream>
#include <pcompact.h>
#include <stdexcept>
#include <string>
#include <vector>

namespace {

std::string text_of(pcompact_fault fault) {
    std::uint8_t text[64];
    pcompact_fault_text(fault, text, sizeof text);
    return reinterpret_cast<const char *>(text);
}

// Why there is no collection. Words and roots are as they were.
struct Fault : std::runtime_error {
    explicit Fault(pcompact_fault fault) : std::runtime_error("fault " + text_of(fault)), fault(fault) {}
    pcompact_fault fault;
};

// The first element. That of an empty vector may be null, which no call takes.
std::uint64_t *start_of(std::vector<std::uint64_t> &vector) {
    static std::uint64_t none;
    return vector.empty() ? &none : vector.data();
}

pcompact_answer collect(std::vector<std::uint64_t> &words, std::vector<std::uint64_t> &roots, pcompact_settings settings) {
    pcompact_answer answer;
    if (pcompact_collect_in_place_rooted(start_of(words), words.size(), start_of(roots), roots.size(), settings, &answer) != 0) {
        throw Fault(answer.fault);
    }
    return answer;
}

} // namespace

int main() {
    const std::uint64_t cell = UINT64_C(0x0100000100000003); // three words, one of them a reference
    std::vector<std::uint64_t> words = {cell, 0, 11, cell, 0, 22, cell, 1 + 3, 33, 0, 0, 0, 0, 0, 0, 0}, none;
    std::vector<std::uint64_t> roots = {1 + 6};
    std::cout << "top " << collect(words, roots, {3, 0}).new_top << " root " << roots[0] - 1 << '\n';
    try {
        words[0] = 0;
        collect(words, roots, {3, 0});
    } catch (const Fault &fault) {
        std::cout << fault.what() << '\n';
    }
    std::cout << "top without roots " << collect(words, none, {3, 0}).new_top << '\n';
}
