#include "books.h"

#include <utility>

namespace feed {

namespace {

template <class Side, class Level>
void put(Side &side, long price, const Level &level) {
    if (level.quantity == "0") side.erase(price);
    else side[price] = level;
}

template <class Side>
std::string listed(const Side &side, std::size_t depth) {
    std::string words;
    for (auto it = side.begin(); it != side.end() && depth; ++it, depth--)
        words += " " + std::to_string(it->first) + ":" + it->second.quantity + ":" + it->second.orders;
    return words;
}

}

Books::Books(const std::vector<std::string> &symbols) {
    for (const std::string &it : symbols) all_[it];
}

void Books::take(const Event &event) {
    if (event.kind() != Event::Kind::Level) return;
    const std::string symbol = event.word(0);
    const auto found = all_.find(symbol);
    if (found == all_.end()) return;
    const long price = std::stol(event.word(2));
    const Level level{event.word(3), event.word(4)};
    if (event.word(1) == "1") put(found->second.buys, price, level);
    else put(found->second.sells, price, level);
    changed_.insert(symbol);
}

std::set<std::string> Books::changed() {
    return std::exchange(changed_, {});
}

void Books::touchAll() {
    for (const auto &it : all_) changed_.insert(it.first);
}

std::string Books::text(const std::string &symbol, long event, std::size_t depth) const {
    const Sides &sides = all_.at(symbol);
    return "book " + std::to_string(event) + " " + symbol + " buys" + listed(sides.buys, depth) + " sells" +
           listed(sides.sells, depth);
}

}
