#include "turns.h"

#include <algorithm>
#include <utility>

#include "names.h"

namespace edge {

namespace {

constexpr char MESSAGE = 'm', NUMBERS = 'd', VENUE = 'v';  // In the place of a name's kind. The second is of a desk.
constexpr std::size_t DIGITS = 18;

/// A part of a row: what it is, its number, how many bytes it has, and these.
void append(std::string &row, char kind, long number, const std::string &bytes) {
    row += kind;
    row += std::to_string(number);
    row += ' ';
    row += std::to_string(bytes.size());
    row += ' ';
    row += bytes;
}

/// The number at this place of a row and the space behind it, which are passed over. Whether they are there.
bool takeNumber(const std::string &row, std::size_t &at, long &number) {
    const std::size_t from = at;
    for (number = 0; at < row.size() && row[at] >= '0' && row[at] <= '9' && at - from < DIGITS; at++)
        number = number * 10 + (row[at] - '0');
    return at > from && at < row.size() && row[at++] == ' ';
}

}

void Turns::add(KeptName it) {
    append(present_, it.kind, it.number, it.name);
    index(std::move(it));
}

void Turns::index(KeptName it) {
    const bool isName =
        it.kind != static_cast<char>(Names::Kind::Probe) && it.kind != static_cast<char>(Names::Kind::Sweep);
    if (isName) byName_.emplace(it.name, names_.size());
    byNumber_.emplace(it.number, names_.size());
    names_.push_back(std::move(it));
}

void Turns::put(long place, const std::string &bytes) {
    append(present_, MESSAGE, place, bytes);
    messages_.push_back({place, bytes});
}

void Turns::putNumbers(int desk, const std::string &numbers) {
    append(present_, NUMBERS, desk, numbers);
}

void Turns::putVenue(long place, const std::string &numbers) {
    append(present_, VENUE, place, numbers);
}

void Turns::kept() {
    present_.clear();
    rows_++;
}

bool Turns::take(const std::string &row, long at, const TakeNumbers &takeNumbers) {
    for (std::size_t from = 0; from < row.size();) {
        const char kind = row[from++];
        long number, size;
        if (!takeNumber(row, from, number) || !takeNumber(row, from, size)) return false;
        if (static_cast<std::size_t>(size) > row.size() - from) return false;
        std::string bytes = row.substr(from, static_cast<std::size_t>(size));
        from += static_cast<std::size_t>(size);
        const bool isNumbers = kind == NUMBERS || kind == VENUE;
        if (isNumbers && !takeNumbers(kind == VENUE, number, bytes)) return false;
        if (isNumbers) continue;
        if (kind == MESSAGE) messages_.push_back({number, std::move(bytes)});
        else index({number, kind, std::move(bytes), at});
    }
    rows_++;
    return true;
}

const KeptName *Turns::ofNumber(long number) const {
    const auto found = byNumber_.find(number);
    return found == byNumber_.end() ? nullptr : &names_[found->second];
}

const KeptName *Turns::ofName(const std::string &name) const {
    const auto found = byName_.find(name);
    return found == byName_.end() ? nullptr : &names_[found->second];
}

void Turns::each(const std::function<void(const KeptName &)> &name,
                 const std::function<void(long, const std::string &)> &message) const {
    for (const KeptName &it : names_) name(it);
    for (const Message &it : messages_) message(it.place, it.bytes);
}

void Turns::clear() {
    names_.clear();
    byName_.clear();
    byNumber_.clear();
    messages_.clear();
    present_.clear();
    rows_ = 0;
}

}
