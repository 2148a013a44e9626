#include "books.h"

#include <algorithm>

#include "event_line.h"
#include "fields.h"

namespace edge {

namespace {

constexpr char BUYS = '1', SELLS = '2';

/// The first levels that lie between these two places.
template <class Place>
std::vector<Level> firstOf(Place from, Place end, std::size_t most) {
    std::vector<Level> levels;
    for (; from != end && levels.size() < most; ++from) levels.push_back(from->second);
    return levels;
}

}

std::vector<Level> Book::best(char side, std::size_t most) const {
    return side == BUYS ? firstOf(bids_.rbegin(), bids_.rend(), most) : firstOf(offers_.begin(), offers_.end(), most);
}

/// A level at which no order rests is none.
void Book::put(char side, const Level &level) {
    auto &levels = side == BUYS ? bids_ : offers_;
    if (level.orders) levels[level.price] = level;
    else levels.erase(level.price);
    version_++;
}

void Book::put(const LastTrade &trade) {
    lastTrade_ = trade;
    version_++;
}

Books::Books(const std::map<std::string, Tick> &ticks) {
    for (const auto &tick : ticks) books_[tick.first];
}

void Books::clear() {
    for (auto &it : books_) {
        const long version = it.second.version_;
        it.second = Book();
        it.second.version_ = version + 1;
    }
    commands_ = outputs_ = 0;
    drop();
}

void Books::take(const char *line, std::size_t size) {
    EventLine it(line, size);
    if (it.is("command")) {
        apply();
        commands_ = it.number() + 1;
        isOpen_ = true;
    } else if (it.is("level")) {
        takeLevel(it.rest(), it.size());
    } else if (it.is("output")) {
        come_ = std::max(come_, it.number() + 1);
        if (isOfTrade(line, size)) takeTrade(it.rest(), it.size());
    }
}

Book *Books::find(const std::string &symbol) {
    const auto found = books_.find(symbol);
    return found == books_.end() ? nullptr : &found->second;
}

/// What stands behind the first word of a level. What is none of the venue's changes nothing.
void Books::takeLevel(const char *from, std::size_t size) {
    EventLine it(from, size);
    Book *const book = find(it.word());
    const std::string side = it.word();
    Level level;
    level.price = it.number();
    level.quantity = it.number();
    level.orders = it.number();
    const bool isSide = side.size() == 1 && (side[0] == BUYS || side[0] == SELLS);
    if (book && isSide && level.price > 0 && level.price <= MOST && level.quantity >= 0 && level.orders >= 0)
        changes_.push_back({book, side[0], level});
    isOpen_ = true;
}

/// What stands behind the place of an output of a trade: the member, and the report with bars.
void Books::takeTrade(const char *from, std::size_t size) {
    EventLine it(from, size);
    it.word();
    const Fields report(it.rest(), it.size(), '|');
    Book *const book = find(report.text(55));
    const LastTrade trade{report.number(17), std::min(report.number(31), MOST), std::min(report.number(32), MOST),
                          report.text(52)};
    if (book && trade.place && trade.price && trade.quantity) trades_.emplace_back(book, trade);
    isOpen_ = true;
}

void Books::settle() {
    isOld_ = isOld_ && !isOpen_;
    apply();
}

/// All of the last command has come.
void Books::apply() {
    for (const Change &it : changes_) it.book->put(it.side, it.level);
    for (const auto &it : trades_) it.first->put(it.second);
    outputs_ = come_;
    drop();
}

void Books::drop() {
    changes_.clear();
    trades_.clear();
    come_ = outputs_;
    isOpen_ = false;
}

}
