// Cuts pieces of bytes into messages by the edge's framer, for framer_tests.py. It reads, and reads again to the end:
// a line `LONGEST MOST PIECES`, a line with the sizes of the pieces, and the bytes of them all. For each run it writes
// a line for each message, and one with how many bytes are left behind the last piece and how many were kept at most.
#include <algorithm>
#include <iostream>
#include <string>

#include "framer.h"

namespace {

void tell(const edge::Framer &framer, const std::string &held) {
    const edge::Sight &sight = framer.sight();
    if (sight.kind == edge::Framer::Taken) std::cout << "taken ";
    else std::cout << "refused " << sight.field << ' ' << sight.reason << ' ';
    std::cout << sight.size;
    for (std::size_t k = 0; k < sight.fields; k++) {
        const edge::Place &it = framer.places()[k];
        std::cout << ' ' << it.tag << '=';
        for (const unsigned char byte : held.substr(sight.passed + it.at, it.size)) {
            static const char *const digits = "0123456789abcdef";
            std::cout << digits[byte / 16] << digits[byte % 16];
        }
    }
    std::cout << '\n';
}

}

int main() {
    std::ios::sync_with_stdio(false);
    for (std::size_t longest, most, pieces; std::cin >> longest >> most >> pieces;) {
        std::vector<std::size_t> sizes(pieces);
        for (std::size_t &it : sizes) std::cin >> it;
        std::cin.get();
        edge::Framer framer(longest, most);
        std::string held;
        std::size_t kept = 0;
        for (const std::size_t size : sizes) {
            std::string piece(size, '\0');
            std::cin.read(&piece[0], static_cast<std::streamsize>(size));
            held += piece;
            while (framer.look(held.data(), held.size()).kind != edge::Framer::None) {
                tell(framer, held);
                held.erase(0, framer.sight().passed + framer.sight().size);
            }
            held.erase(0, framer.sight().passed);
            kept = std::max(kept, held.size());
        }
        std::cout << "left " << held.size() << " kept " << kept << std::endl;
    }
}
