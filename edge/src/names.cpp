#include "names.h"

#include <algorithm>
#include <cstdlib>
#include <cstring>
#include <ctime>

namespace edge {

namespace {

constexpr int DROPPED_AT_ONCE = 500;
constexpr long MOST_PLACES = VenueRecord::NAMES - 1;  // The last place of a venue.

std::string textOf(Names::Kind kind) {
    return std::string(1, static_cast<char>(kind));
}

}

constexpr long Names::GREATEST;

Names::Names(Record &record, std::size_t venue, const std::string &letter)
    : record_(record),
      own_(record, venue),
      letter_(letter),
      strike_(record.database(), "UPDATE names SET kind = 's' WHERE number = ?"),
      byNumber_(record.database(), "SELECT name, kind FROM names WHERE number = ?"),
      byName_(record.database(), "SELECT number, kind FROM names WHERE name = ? AND kind NOT IN ('p', 'w') LIMIT 1"),
      unanswered_(record.database(),
                  "SELECT number FROM names WHERE number > ? AND number <= ? AND kind IN ('r', 'g') ORDER BY number"),
      from_(record.database(),
            "SELECT number, at FROM names WHERE number > ? AND (number <= ? OR kind IN ('x', 's')) AND kind != 'w'"
            " AND number <= ? ORDER BY number LIMIT ?"),
      range_(record.database(), "SELECT number, name, kind FROM names WHERE number >= ? AND number < ?"),
      drop_(record.database(), "DELETE FROM names WHERE number = ?"),
      sweeps_(record.database(),
              "SELECT number, name FROM names WHERE kind = 'w' AND number > ? AND number <= ? ORDER BY number"),
      greatest_(record.database(), "SELECT number FROM names WHERE number <= ? ORDER BY number DESC LIMIT 1") {}

std::string Names::ownWord(long number) const {
    return (own_.isFirst() ? "" : letter_) + std::to_string(number);
}

long Names::add(const std::string &name, Kind kind, int desk) {
    VenueState &state = own_.change();
    const std::string kept = keptName(name, desk);
    record_.add({own_.place(state.last + 1), static_cast<char>(kind), kept, static_cast<long>(std::time(nullptr))});
    Recent &recent = recentOf(++state.last);
    recent.number = state.last;
    recent.name = kept;
    return state.last;
}

/// Keeps a row behind the greatest number that a venue takes, so that no report is of it.
long Names::addBeside(const std::string &name, Kind kind, int desk) {
    if (!beside_ || besideClosing_ != record_.closings()) {
        record_.fillTables();
        Rows rows = greatest_.of(own_.place(MOST_PLACES));
        beside_ = std::max(GREATEST, rows.next() ? own_.numberAt(rows.number(0)) : 0);
        besideClosing_ = record_.closings();
    }
    record_.add(
        {own_.place(++beside_), static_cast<char>(kind), keptName(name, desk), static_cast<long>(std::time(nullptr))});
    return beside_;
}

/// The place of a number. A record that was closed has lost what wasn't committed: all names of before are forgotten.
Names::Recent &Names::recentOf(long number) {
    if (recentClosing_ != record_.closings())
        for (Recent &it : recent_) it.number = 0;
    recentClosing_ = record_.closings();
    return recent_[static_cast<std::size_t>(number) % RECENT];
}

void Names::strike(long number) {
    record_.changeTables();
    strike_.run(own_.place(number));
}

/// A name as the record has it, or nothing.
std::string Names::keptOf(long number) {
    const Recent &recent = recentOf(number);
    if (number && recent.number == number) return recent.name;
    const long place = own_.place(number);
    if (const KeptName *const kept = record_.turns().ofNumber(place)) return kept->name;
    Rows rows = byNumber_.of(place);
    return rows.next() ? rows.bytes(0) : "";
}

/// What a number is called that has no name.
std::string Names::wordOf(long number) const {
    const long first = own_.state().first;
    return (first && number >= first ? NAMELESS : "") + ownWord(number);
}

/// Whether a name that the record has is one of a desk that there is.
bool Names::isOfDesk(const std::string &kept) const {
    return !kept.empty() && record_.hasDesk(deskOfKept(kept));
}

std::string Names::nameOf(long number) {
    const std::string kept = keptOf(number);
    if (isOfDesk(kept)) return nameOfKept(kept);
    return wordOf(number);
}

/// What is told of a number with this row of the record, or with none.
NamedNumber Names::named(const KeptName &it) const {
    const bool isOfOne = isOfDesk(it.name);
    return {it.number,
            isOfOne ? nameOfKept(it.name) : wordOf(it.number),
            isOfOne ? deskOfKept(it.name) : FIRST_DESK,
            !isOfOne && record_.hasHadDesks(),
            it.kind == static_cast<char>(Kind::Expiry),
            it.kind == static_cast<char>(Kind::Operator)};
}

std::vector<NamedNumber> Names::namesOf(long from, long end) {
    std::vector<KeptName> kept;
    for (long number = from; number < end; number++) kept.push_back({number, '\0', "", 0});
    for (Rows rows = range_.of(own_.place(from), own_.place(end)); rows.next();) {
        KeptName &it = kept[static_cast<std::size_t>(own_.numberAt(rows.number(0)) - from)];
        it.name = rows.bytes(1);
        it.kind = rows.bytes(2)[0];
    }
    std::vector<NamedNumber> names;
    for (const KeptName &it : kept) {
        const KeptName *const inTurn = record_.turns().ofNumber(own_.place(it.number));
        names.push_back(named(inTurn ? KeptName{it.number, inTurn->kind, inTurn->name, inTurn->at} : it));
    }
    return names;
}

int Names::deskOf(long number) {
    if (!record_.hasHadDesks()) return FIRST_DESK;
    const std::string kept = keptOf(number);
    return isOfDesk(kept) ? deskOfKept(kept) : FIRST_DESK;
}

int Names::ownerOf(long number) {
    return record_.hasHadDesks() ? deskOfKept(keptOf(number)) : FIRST_DESK;
}

bool Names::isOfNoDesk(long number) {
    return record_.hasHadDesks() && !isOfDesk(keptOf(number));
}

long Names::numberOf(const std::string &name, int desk) {
    const Found found = find(name, desk);
    if (found.number || desk != FIRST_DESK) return found.wasRefused ? 0 : found.number;
    return findNameless(name).number;
}

bool Names::isKnown(const std::string &name, int desk) {
    const Found found = find(name, desk);
    return found.number || found.isElsewhere || (desk == FIRST_DESK && findNameless(name).number);
}

/// A member may ask for what begins as another desk's names do in the record: that is none of its own.
Names::Found Names::find(const std::string &name, int desk) {
    Found it;
    const std::string kept = keptName(name, desk);
    if (deskOfKept(kept) != desk) return it;
    if (const KeptName *const found = record_.turns().ofName(kept)) return foundAt(found->number, found->kind);
    Rows rows = byName_.of(kept);
    return rows.next() ? foundAt(rows.number(0), rows.bytes(1)[0]) : it;
}

/// What a name comes to that stands at this place of the record, which may be another venue's.
Names::Found Names::foundAt(long place, char kind) const {
    Found it;
    it.number = own_.numberAt(place);
    it.isElsewhere = !it.number;
    it.wasRefused = kind == static_cast<char>(Kind::Refused);
    return it;
}

/// The number that a name of no desk has by itself.
Names::Found Names::findNameless(const std::string &name) {
    Found it;
    const std::size_t front = name.compare(0, std::strlen(NAMELESS), NAMELESS) ? 0 : std::strlen(NAMELESS);
    const std::size_t from = front + (own_.isFirst() ? 0 : letter_.size());
    if (from > name.size()) return it;
    const long number = std::atol(name.substr(from, 15).c_str());  // One without a name, perhaps.
    if (number <= 0 || number > last() || isOfDesk(keptOf(number))) return it;
    if (nameOf(number) == name) it.number = number;
    return it;
}

/// Whether a name of this number is kept.
bool Names::isThere(long number) {
    const long place = own_.place(number);
    return record_.turns().ofNumber(place) || byNumber_.of(place).next();
}

void Names::answered(long number) {
    if (number > own_.state().settled) own_.change().settled = number;
}

bool Names::has(long number) {
    return number <= last() && (number <= own_.state().settled || isThere(number));
}

void Names::note(long number) {
    if (number > last()) own_.change().last = number;
}

void Names::isRead() {
    if (!own_.state().first) own_.change().first = last() + 1;
}

std::vector<long> Names::unanswered(long upTo) {
    std::vector<long> numbers;
    record_.fillTables();
    const long from = own_.place(own_.state().settled), to = own_.place(upTo);
    for (Rows rows = unanswered_.of(from, to); rows.next();) numbers.push_back(own_.numberAt(rows.number(0)));
    return numbers;
}

bool Names::is(long number, Kind kind) {
    const long place = own_.place(number);
    if (const KeptName *const kept = record_.turns().ofNumber(place)) return kept->kind == static_cast<char>(kind);
    Rows rows = byNumber_.of(place);
    return rows.next() && rows.bytes(1) == textOf(kind);
}

std::vector<KeptSweep> Names::sweeps() {
    std::vector<KeptSweep> found;
    const auto add = [&found, this](long place, const std::string &kept) {
        if (const long number = own_.numberAt(place)) found.push_back({number, deskOfKept(kept), nameOfKept(kept)});
    };
    const long from = own_.place(0), to = own_.place(MOST_PLACES);
    for (Rows rows = sweeps_.of(from, to); rows.next();) add(rows.number(0), rows.bytes(1));
    const auto take = [&](const KeptName &it) {
        if (it.kind == static_cast<char>(Kind::Sweep)) add(it.number, it.name);
    };
    record_.turns().each(take, [](long, const std::string &) {});
    return found;
}

void Names::forget(long number) {
    record_.changeTables();
    drop_.run(own_.place(number));
}

void Names::drop(const std::function<bool(long)> &rests) {
    const VenueState &state = own_.state();
    if (!state.dropBefore) return;
    record_.changeTables();
    std::vector<long> some;
    bool isEnd = false;
    {
        const long from = own_.place(droppedTo_), settled = own_.place(state.settled), to = own_.place(MOST_PLACES);
        Rows rows = from_.of(from, settled, to, DROPPED_AT_ONCE);
        while (!isEnd && rows.next()) {
            isEnd = rows.number(1) >= state.dropBefore;
            if (!isEnd) some.push_back(own_.numberAt(rows.number(0)));
        }
    }
    VenueState &changed = own_.change();
    for (const long number : some)
        if (!rests(number)) drop_.run(own_.place(number));
    const bool isDone = isEnd || some.size() < DROPPED_AT_ONCE;
    if (!isDone) droppedTo_ = some.back();
    else if (letter_.empty() || droppedTo_ >= GREATEST) changed.dropBefore = droppedTo_ = 0;
    else droppedTo_ = GREATEST;  // What stands beside the numbers isn't in the order of these.
}

}
