#pragma once

// Trades, each made of its two reports: between the events and their stream of trades.

#include <string>

#include "lines_of_events.h"

namespace feed {

/// Pairs the reports of fills, which the venue tells one behind the other: first of the order that rested.
class Trades {
public:
    /// Takes an event of this number. Whether it makes a trade whole, whose symbol and text these are then.
    bool take(long number, const Event &event);

    const std::string &symbol() const { return symbol_; }
    const std::string &text() const { return text_; }

private:
    std::string place_;  // Of the first report, until the second; empty: it isn't there yet.
    std::string symbol_, text_;
};

}
