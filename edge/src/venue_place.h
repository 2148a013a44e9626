#pragma once

// Where a venue is: for the edge's settings, and for replay.h, by which the feed reads a journal, too.

#include <algorithm>
#include <stdexcept>
#include <string>
#include <vector>

namespace edge {

/// Where a venue is, and how what it has kept is read.
struct VenuePlace {
    int port;                          // Of C1; that of Ck is k - 1 above it.
    std::string journal, events;       // Its journal's file, and the program venue-events.
    std::vector<std::string> symbols;  // In the venue's order.
    std::string letter;                // What tells it from others of a member; empty: the member has one.
    std::string host = "127.0.0.1";    // Its own machine, or the near end of a tunnel.

    bool trades(const std::string &symbol) const {
        return std::find(symbols.begin(), symbols.end(), symbol) != symbols.end();
    }
};

/// What keeps a venue from being used, whose journal can't be read or lacks what was told.
class VenueFault : public std::runtime_error {
    using std::runtime_error::runtime_error;
};

}
