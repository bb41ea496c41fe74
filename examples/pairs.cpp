// Reads a session from standard input, 32 leading bytes and the records, and prints K, the weight, and each stretch that was kept: its
// offset and its length in milliseconds.
#include <iostream>
#include <iterator>
#include <vector>

#include "quoting.hpp"

int main() {
    const std::vector<std::uint8_t> bytes{std::istreambuf_iterator<char>(std::cin), std::istreambuf_iterator<char>()};
    std::vector<std::uint32_t> words(quoting::pairs_words(bytes.size()));
    const quoting::Kept kept = quoting::session(bytes, words.data(), words.size());
    if (!kept) {
        std::cout << "refused " << kept.status.number() << " at " << kept.place << ": " << kept.status.text() << '\n';
        return 0;
    }
    std::cout << "kept " << kept.kept() << " weight " << kept.weight() << '\n';
    for (std::uint32_t i = 0; i < kept.size(); i++) std::cout << kept[i].offset << ' ' << kept[i].length << '\n';
    return 0;
}
