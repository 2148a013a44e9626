#include "commands.h"

#include <algorithm>
#include <map>

#include "settings.h"

namespace edge {

namespace {

const char *const NUMBERS = "numbers", *const NAMES = "names";
constexpr std::size_t MOST_DIGITS = 18;  // That a long has room for.

const std::map<std::string, Command::Kind> OF_MEMBERS{{"stop", Command::Kind::Stop},
                                                      {"resume", Command::Kind::Resume},
                                                      {"cancel", Command::Kind::Cancel},
                                                      {"status", Command::Kind::Status},
                                                      {NUMBERS, Command::Kind::Numbers}};
const std::map<std::string, Command::Kind> OF_SYMBOLS{{"halt", Command::Kind::Halt},
                                                      {"resume", Command::Kind::ResumeSymbol}};

/// Reads the two numbers of a session, with a blank between them. Whether they are there.
bool readNumbers(const std::string &words, Command &into) {
    const std::size_t end = words.find(' ');
    if (end == std::string::npos) return false;
    const std::string out = words.substr(0, end), in = words.substr(end + 1);
    if (!isNumber(out) || !isNumber(in) || std::max(out.size(), in.size()) > MOST_DIGITS) return false;
    into.kind = Command::Kind::SetNumbers;
    into.out = std::stol(out);
    into.in = std::stol(in);
    return out == std::to_string(into.out) && in == std::to_string(into.in);  // A number has one spelling.
}

/// Reads the number from which on names are asked for, and the letter of a venue behind a blank, where there is one.
/// Whether they are there.
bool readFrom(const std::string &words, Command &into) {
    const std::string number = words.substr(0, words.find(' '));
    if (!isNumber(number) || number.size() > MOST_DIGITS) return false;
    into.kind = Command::Kind::Names;
    into.from = std::stol(number);
    into.venue = words.substr(std::min(number.size() + 1, words.size()));
    return number == std::to_string(into.from) && (number.size() == words.size() || isVenue(into.venue));
}

}

bool isNumber(const std::string &word) {
    return !word.empty() && word.find_first_not_of("0123456789") == std::string::npos;
}

std::string Command::words() const {
    if (kind == Kind::Names)
        return std::string(NAMES) + " " + std::to_string(from) + (venue.empty() ? "" : " " + venue);
    if (kind == Kind::SetNumbers) return std::string(NUMBERS) + " " + std::to_string(out) + " " + std::to_string(in);
    for (const auto &it : symbol.empty() ? OF_MEMBERS : OF_SYMBOLS)
        if (it.second == kind) return symbol.empty() ? it.first : it.first + " " + symbol;
    return "";
}

bool Command::read(const std::string &words, Command &into) {
    const std::size_t end = words.find(' ');
    const std::string verb = words.substr(0, end);
    if (end != std::string::npos && verb == NUMBERS) return readNumbers(words.substr(end + 1), into);
    if (end != std::string::npos && verb == NAMES) return readFrom(words.substr(end + 1), into);
    const auto &kinds = end == std::string::npos ? OF_MEMBERS : OF_SYMBOLS;
    const auto found = kinds.find(verb);
    if (found == kinds.end()) return false;
    into.kind = found->second;
    into.symbol = end == std::string::npos ? "" : words.substr(end + 1);
    return end == std::string::npos || isSymbol(into.symbol);
}

}
