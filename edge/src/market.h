#pragma once

#include <cstddef>
#include <map>
#include <set>
#include <string>
#include <vector>

#include "exposure.h"
#include "fields.h"
#include "ticks.h"

namespace edge {

/// What a member's limits have to know of all members: the last trade of each symbol, and what rests for the other
/// desks of its firm. It is of lines of venue-events, and so of what the journal had some twenty milliseconds before.
class Market {
public:
    Market(const std::map<std::string, Tick> &ticks, const std::set<std::string> &desks);

    /// The journal is read anew.
    void clear();

    /// A line of venue-events.
    void take(const char *line, std::size_t size);

    /// A report to the member itself, which may come in front of its line.
    void take(const Fields &report);

    /// The price of the last trade of a symbol, in steps, or 0.
    long lastTradeOf(const std::string &symbol) const;

    /// Another desk of the firm that has an order with which one of this symbol, side and price would trade, or
    /// nothing.
    std::string deskCrossedBy(const std::string &symbol, char side, long price) const;

private:
    struct Trade {
        long place = 0, price = 0;
    };

    void takeOutput(const char *from, std::size_t size);

    std::map<std::string, Trade> trades_;
    std::map<std::string, Exposure> desks_;
    long outputs_ = 0;  // So many of all outputs have been told.
};

}
