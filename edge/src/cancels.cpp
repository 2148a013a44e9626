#include "cancels.h"

#include <algorithm>
#include <cstdio>

#include "orders.h"
#include "seconds.h"

namespace edge {

namespace {

const char *const ALL = "*";  // In the place of a symbol or a side.
constexpr char DAY = 'D';     // In the place of a side: what is Day, of both sides.
constexpr std::size_t MOST_OWED = 100;

/// A sweep as its row has it, as `17 ABC 1 MC-7`, or `17 * D 20300101-22:00:00` of a day's end.
std::string textOf(const Sweep &it) {
    const std::string front = std::to_string(it.upTo) + " " + (it.symbol.empty() ? ALL : it.symbol) + " ";
    if (it.isOfDay()) return front + DAY + " " + it.end;
    return front + (it.side ? std::string(1, it.side) : ALL) + " " + it.name;
}

/// The sweep of a row.
Sweep sweepOf(const KeptSweep &row) {
    Sweep it;
    char symbol[9], side;
    int end = 0;
    if (std::sscanf(row.text.c_str(), "%ld %8s %c%n", &it.upTo, symbol, &side, &end) != 3)
        throw DatabaseFault("row " + std::to_string(row.number) + " of its record is none of a mass cancel");
    if (symbol != std::string(ALL)) it.symbol = symbol;
    if (side != *ALL && side != DAY) it.side = side;
    (side == DAY ? it.end : it.name) = row.text.substr(std::min(row.text.size(), static_cast<std::size_t>(end) + 1));
    it.row = row.number;
    it.known = it.upTo;
    it.desk = it.name.empty() && row.desk == FIRST_DESK ? 0 : row.desk;
    return it;
}

}

void Cancels::attach() {
    venueLost();
    sweeps_.clear();
    over_.clear();
    for (const KeptSweep &row : names_.sweeps()) sweeps_.push_back(sweepOf(row));
}

void Cancels::venueLost() {
    underWay_.clear();
    orders_.clear();
    probe_ = 0;
    for (Sweep &it : sweeps_) it.last = 0;
}

std::size_t Cancels::send(const Orders &orders, const Sweep &it) {
    const std::string time = timeNow(), own = it.isOfDay() ? EXPIRY : CANCEL;
    const Names::Kind kind = it.isOfDay()        ? Names::Kind::Expiry
                             : it.isOfOperator() ? Names::Kind::Operator
                                                 : Names::Kind::Cancel;
    std::size_t count = 0;
    for (const auto &order : orders) {
        if (names_.last() >= Names::GREATEST) break;
        if (!orders_.insert(order.first).second) continue;
        const std::string name = it.name.empty() ? own + names_.ownWord(names_.last() + 1) : it.name;
        const long number = names_.add(name, kind, it.desk ? it.desk : order.second.desk);
        link_.send("F", cancelFor(order.second, number, order.first, time), time);
        underWay_[number] = order.first;
        count++;
    }
    return count;
}

/// Whether each of these orders has a cancel under way.
bool Cancels::areUnderWay(const Orders &orders) const {
    return std::all_of(orders.begin(), orders.end(),
                       [this](const Orders::value_type &it) { return orders_.count(it.first); });
}

std::size_t Cancels::begin(Sweep &it, const Orders &orders) {
    const bool isNew = !it.upTo;
    if (isNew) it.known = it.upTo = names_.last() + 1;
    Orders taken;
    for (const auto &order : orders)
        if (it.takes(order.first, order.second)) taken.insert(order);
    it.count = taken.size();
    const bool mayCome = probe_ && (it.isOfDay() || sweeps_.size() < MOST_OWED);
    if (areUnderWay(taken) && !mayCome && (taken.empty() || (isNew && !it.name.empty()))) return 0;
    keep(it);
    const bool isLater = probe_ && it.isOfDay();  // Cancels by a day's end before may be at the venue.
    const std::size_t count = isLater ? 0 : send(taken, it);
    it.last = probe_ ? 0 : underWay_.empty() ? it.row : underWay_.rbegin()->first;  // Some may be of another sweep.
    sweeps_.push_back(it);
    return count;
}

Sweep Cancels::owe(Sweep it) {
    it.known = it.upTo = names_.isBeside() ? Names::GREATEST + 1 : names_.last() + 1;
    it.last = 0;
    it.isLast = true;
    const auto covers = [&it](const Sweep &other) {
        return other.isLast && (!other.desk || other.desk == it.desk) &&
               (other.symbol.empty() || other.symbol == it.symbol) && (!other.side || other.side == it.side);
    };
    const auto known = std::find_if(sweeps_.begin(), sweeps_.end(), covers);
    if (known != sweeps_.end()) return *known;
    keep(it);
    sweeps_.insert(sweeps_.begin(), it);
    return it;
}

void Cancels::venueBack() {
    for (Sweep &it : sweeps_) {
        it.isLast = false;
        if (it.upTo <= Names::GREATEST) continue;
        names_.forget(it.row);
        it.upTo = names_.last() + 1;
        keep(it);
    }
}

void Cancels::keep(Sweep &it) {
    it.row = names_.keep(textOf(it), Names::Kind::Sweep, it.desk ? it.desk : FIRST_DESK);
}

void Cancels::answered(long settled) {
    while (!underWay_.empty() && underWay_.begin()->first <= settled) {
        orders_.erase(underWay_.begin()->second);
        underWay_.erase(underWay_.begin());
    }
    while (!sweeps_.empty() && !isOwed() && sweeps_.front().last <= settled) {
        over_.push_back(sweeps_.front().row);
        sweeps_.erase(sweeps_.begin());
    }
}

std::vector<Sweep> Cancels::takeOwed(long settled) {
    std::vector<Sweep> owed;
    if (!probe_ || settled < probe_) return owed;
    probe_ = 0;
    const auto isKnown = [](const Sweep &it) { return it.last; };
    const auto end = std::find_if(sweeps_.begin(), sweeps_.end(), isKnown);
    owed.assign(sweeps_.begin(), end);
    sweeps_.erase(sweeps_.begin(), end);
    for (const Sweep &it : owed) over_.push_back(it.row);
    return owed;
}

bool Cancels::isEndOwed() const {
    return std::any_of(sweeps_.begin(), sweeps_.end(), [](const Sweep &it) { return it.isOfDay() && !it.last; });
}

bool Cancels::isOver(long known) const {
    if (known > Names::GREATEST) return sweeps_.empty();  // By that several may be known, or by another number since.
    return std::none_of(sweeps_.begin(), sweeps_.end(), [known](const Sweep &it) { return it.known == known; });
}

void Cancels::tidy() {
    for (const long row : over_) names_.forget(row);
    over_.clear();
}

}
