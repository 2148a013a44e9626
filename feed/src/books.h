#pragma once

// What rests, level by level, as the events tell it: between these and the stream of books.

#include <cstddef>
#include <functional>
#include <map>
#include <set>
#include <string>
#include <vector>

#include "lines_of_events.h"

namespace feed {

/// The levels of each symbol and side, and which symbols have others since they were told.
class Books {
public:
    explicit Books(const std::vector<std::string> &symbols);

    /// Takes an event.
    void take(const Event &event);

    /// The symbols whose levels aren't told yet. Who tells them takes them all.
    std::set<std::string> changed();

    /// Lets all symbols be told again.
    void touchAll();

    /// The text of a symbol's book as of this event, of no more levels than these.
    std::string text(const std::string &symbol, long event, std::size_t depth) const;

private:
    struct Level {
        std::string quantity, orders;
    };
    struct Sides {
        std::map<long, Level, std::greater<long>> buys;
        std::map<long, Level> sells;
    };

    std::map<std::string, Sides> all_;
    std::set<std::string> changed_;
};

}
