#include "quiet.h"

#include <algorithm>
#include <sstream>

namespace edge {

namespace {

constexpr std::size_t WORDS = 6, LONGEST = 80, KINDS = 64;
constexpr std::chrono::seconds SECOND(1);

std::string kindOf(const std::string &line) {
    std::istringstream from(line);
    std::string kind;
    std::size_t count = 0;
    for (std::string word; count < WORDS && from >> word;) {
        if (std::any_of(word.begin(), word.end(), [](char it) { return it >= '0' && it <= '9'; })) continue;
        kind += (count++ ? " " : "") + word;
    }
    return kind.substr(0, LONGEST);
}

}

bool Quiet::lets(const std::string &line, int most) {
    std::string name = kindOf(line);
    if (kinds_.size() >= KINDS && !kinds_.count(name)) name = "..";
    Kind &kind = kinds_[name];
    const auto now = Clock::now();
    if (now - kind.since >= SECOND) kind = Kind{now, 0, 0};
    if (kind.said < most) {
        kind.said++;
        return true;
    }
    kind.unsaid++;
    return false;
}

std::vector<std::string> Quiet::counts() {
    std::vector<std::string> lines;
    const auto now = Clock::now();
    for (auto it = kinds_.begin(); it != kinds_.end();) {
        const bool isOver = now - it->second.since >= SECOND;
        if (isOver && it->second.unsaid)
            lines.push_back(std::to_string(it->second.unsaid) + " more lines like this one: " + it->first + " ..");
        it = isOver ? kinds_.erase(it) : std::next(it);
    }
    return lines;
}

}
