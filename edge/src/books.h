#pragma once

// The market as the journal has it: what rests at each price, and the last trades. member.cpp reads the lines of
// venue-events into it, and market_data.h tells a member of it.

#include <cstddef>
#include <map>
#include <string>
#include <utility>
#include <vector>

#include "ticks.h"

namespace edge {

/// What rests at one price of a side: how much in all, and of how many orders.
struct Level {
    long price = 0, quantity = 0, orders = 0;

    bool operator==(const Level &other) const {
        return price == other.price && quantity == other.quantity && orders == other.orders;
    }
};

/// A trade, by the place of its report among all; 0: there was none. Its time is that of FIX, in UTC.
struct LastTrade {
    long place = 0, price = 0, quantity = 0;
    std::string time;
};

/// The book of one symbol.
class Book {
public:
    /// The best levels of a side, `1` or `2`, the best first: so many at most.
    std::vector<Level> best(char side, std::size_t most) const;

    const LastTrade &lastTrade() const { return lastTrade_; }

    /// It rises with each change.
    long version() const { return version_; }

private:
    friend class Books;

    void put(char side, const Level &level);
    void put(const LastTrade &trade);

    std::map<long, Level> bids_, offers_;  // By their prices.
    LastTrade lastTrade_;
    long version_ = 1;
};

/// The books of all symbols, each behind a whole command: what the lines of one command change is seen once the next
/// command begins, or nothing more has come for a while.
class Books {
public:
    /// Of these symbols. Lines of others are counted, and change nothing.
    explicit Books(const std::map<std::string, Tick> &ticks);

    /// The journal is read anew.
    void clear();

    /// A line of venue-events.
    void take(const char *line, std::size_t size);

    /// What tells the journal begins anew, by the last command once more: until that has come, and all behind it, the
    /// books are of before.
    void beginAnew() { isOld_ = commands_ > 0; }
    bool isOld() const { return isOld_; }

    /// Whether something of that has come, or there was nothing to come.
    bool hasCome() const { return !isOld_ || isOpen_; }

    /// Whether the books are those of the market now, as who reads into them says: they are followed, and not late.
    void isThere(bool is) { isThere_ = is; }
    bool isThere() const { return isThere_; }

    /// So many of all outputs are of commands that the books have.
    long outputs() const { return outputs_; }

    /// Nothing more comes of the last command, and none behind it for a while.
    void settle();
    bool isSettled() const { return !isOpen_; }

    /// What has come of the last command isn't all of it: it is to come once more.
    void drop();

    /// So many commands of the journal have been told with all that they did. The last one may have been cut off: that
    /// one may be told again.
    long commands() const { return commands_ > 0 ? commands_ - 1 : 0; }

    const Book &of(const std::string &symbol) const { return books_.at(symbol); }

private:
    struct Change {
        Book *book;
        char side;
        Level level;
    };

    Book *find(const std::string &symbol);
    void apply();
    void takeLevel(const char *from, std::size_t size);
    void takeTrade(const char *from, std::size_t size);

    std::map<std::string, Book> books_;
    std::vector<Change> changes_;                       // Of the command whose lines come,
    std::vector<std::pair<Book *, LastTrade>> trades_;  // and its trades.
    bool isOpen_ = false, isOld_ = false, isThere_ = false;
    long commands_ = 0;            // That have been told, the last one perhaps in part.
    long outputs_ = 0, come_ = 0;  // Without those of that one, and with them.
};

}
