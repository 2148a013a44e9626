#include "market.h"

#include <algorithm>

#include "event_line.h"

namespace edge {

Market::Market(const std::map<std::string, Tick> &ticks, const std::set<std::string> &desks) {
    for (const auto &tick : ticks) trades_[tick.first] = {};
    for (const std::string &desk : desks) desks_.emplace(desk, ticks);
}

void Market::clear() {
    for (auto &trade : trades_) trade.second = {};
    for (auto &desk : desks_) desk.second.clear();
    outputs_ = 0;
}

void Market::take(const char *line, std::size_t size) {
    EventLine it(line, size);
    if (it.is("output")) takeOutput(it.rest(), it.size());
}

/// What stands behind the first word of an output: its place, the member, and the report with bars. What has been told
/// before is passed over.
void Market::takeOutput(const char *from, std::size_t size) {
    EventLine it(from, size);
    const long place = it.number();
    const auto desk = desks_.find(it.word());
    if (!it.size() || place < outputs_) return;
    outputs_ = place + 1;
    if (desk == desks_.end() && !isOfTrade(it.rest(), it.size())) return;
    const Fields report(it.rest(), it.size(), '|');
    if (desk != desks_.end()) desk->second.take(report);
    take(report);
}

/// A trade has the place of its report among all: one that has come before isn't the last.
void Market::take(const Fields &report) {
    if (report.byte(150) != 'F') return;
    const auto trade = trades_.find(report.text(55));
    const long place = report.number(17), price = std::min(report.number(31), MOST);
    if (trade != trades_.end() && place > trade->second.place && price) trade->second = {place, price};
}

long Market::lastTradeOf(const std::string &symbol) const {
    const auto trade = trades_.find(symbol);
    return trade == trades_.end() ? 0 : trade->second.price;
}

std::string Market::deskCrossedBy(const std::string &symbol, char side, long price) const {
    for (const auto &desk : desks_)
        if (!desk.second.crossedBy(symbol, side, price).empty()) return desk.first;
    return "";
}

}
