#include "lines_of_events.h"

namespace feed {

namespace {

Event::Kind kindOf(const std::string &line) {
    const auto begins = [&](const char *words, std::size_t size) { return !line.compare(0, size, words); };
    if (begins("output ", 7)) return Event::Kind::Output;
    if (begins("level ", 6)) return Event::Kind::Level;
    return begins("command ", 8) ? Event::Kind::Command : Event::Kind::Other;
}

}

Event::Event(const std::string &line) : line_(line), kind_(kindOf(line)) {}

std::string Event::word(std::size_t number) const {
    std::size_t at = line_.find(' ');
    while (number-- && at != std::string::npos) at = line_.find(' ', at + 1);
    if (at == std::string::npos) return "";
    return line_.substr(at + 1, line_.find(' ', at + 1) - at - 1);
}

std::string Event::field(const std::string &tag) const {
    const std::string front = "|" + tag + "=";
    const std::size_t at = line_.find(front);
    if (at == std::string::npos) return "";
    return line_.substr(at + front.size(), line_.find('|', at + front.size()) - at - front.size());
}

int Event::member() const {
    if (kind_ != Kind::Output) return 0;
    const std::string name = word(1);
    return name.size() == 2 && name[0] == 'C' && name[1] >= '1' && name[1] <= '8' ? name[1] - '0' : 0;
}

}
