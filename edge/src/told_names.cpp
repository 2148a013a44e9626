#include "told_names.h"

#include <algorithm>
#include <cstring>

namespace edge {

namespace {

constexpr long AT_ONCE = 64;                             // Names of a line.
constexpr std::size_t MOST_BYTES = 3800, LONGEST = 128;  // Of a line of names, and of a name or a CompID.
constexpr char EXPIRES = 'e', OF_OPERATOR = 'p', OF_NO_DESK = 'n', OF_NO_DESK_BY_OPERATOR = 'b', OTHER = 'o';

/// What a number is, by one letter: what the edge itself has sent is of a known desk, or has a text of its own.
char kindOf(const NamedNumber &it) {
    if (it.isExpiry) return EXPIRES;
    if (it.isOfOperator) return it.isOfNoDesk ? OF_NO_DESK_BY_OPERATOR : OF_OPERATOR;
    return it.isOfNoDesk ? OF_NO_DESK : OTHER;
}

/// A text with its length in front and a blank behind.
std::string counted(const std::string &text) {
    return std::to_string(text.size()) + " " + text + " ";
}

/// The line, word by word.
class Words {
public:
    explicit Words(const std::string &line) : line_(line) {}

    bool isEnd() const { return at_ == line_.size(); }

    /// Takes a number of 1 to 15 digits; -1 where it is none.
    long number() {
        const std::size_t end = line_.find(' ', at_), size = end == std::string::npos ? 0 : end - at_;
        if (!size || size > 15) return -1;
        const std::string digits = line_.substr(at_, size);
        at_ = end + 1;
        return digits.find_first_not_of("0123456789") == std::string::npos ? std::stol(digits) : -1;
    }

    /// Takes a text that has its length in front. Whether it is there, and prints.
    bool text(std::string &into) {
        const long size = number();
        if (size < 1 || static_cast<std::size_t>(size) > LONGEST ||
            line_.size() - at_ <= static_cast<std::size_t>(size))
            return false;
        into = line_.substr(at_, static_cast<std::size_t>(size));
        at_ += into.size() + 1;
        return line_[at_ - 1] == ' ' &&
               std::all_of(into.begin(), into.end(), [](char it) { return it >= ' ' && it <= '~'; });
    }

private:
    const std::string &line_;
    std::size_t at_ = 0;
};

}

std::string toldNames(const std::function<std::string(int)> &compIdOf, long from, Names &names) {
    std::string line = std::to_string(names.opening()) + " " + counted(compIdOf(FIRST_DESK));
    const long first = std::max(1L, from);
    for (const NamedNumber &it : names.namesOf(first, std::min(first + AT_ONCE, names.last() + 1))) {
        const std::string kind = std::string(1, kindOf(it)) + (it.desk == FIRST_DESK ? "" : compIdOf(it.desk));
        const std::string more = std::to_string(it.number) + " " + counted(kind) + counted(it.name);
        if (line.size() + more.size() > MOST_BYTES) break;
        line += more;
    }
    return line;
}

bool readToldNames(const std::string &line, ToldNames &into) {
    Words words(line);
    into.opening = words.number();
    if (into.opening < 1 || !words.text(into.compId)) return false;
    while (!words.isEnd()) {
        const long number = words.number();
        std::string kind;
        ToldName it;
        if (number < 1 || !words.text(kind) || !words.text(it.name)) return false;
        it.isExpiry = kind[0] == EXPIRES;
        it.isOfOperator = kind[0] == OF_OPERATOR || kind[0] == OF_NO_DESK_BY_OPERATOR;
        it.isOfNoDesk = kind[0] == OF_NO_DESK || kind[0] == OF_NO_DESK_BY_OPERATOR;
        it.compId = kind.substr(1);
        into.names[number] = it;
    }
    return true;
}

}
