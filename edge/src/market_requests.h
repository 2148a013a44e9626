#pragma once

// What a member asks of the market (35=V). market_data.h takes it up, or answers why not.

#include <quickfix/Message.h>

#include <cstddef>
#include <map>
#include <set>
#include <stdexcept>
#include <string>
#include <vector>

#include "ticks.h"

namespace edge {

/// A request for the market that isn't granted: the reason in FIX's letters (281), or 0 where none fits, and in words.
class MarketRefused : public std::runtime_error {
public:
    MarketRefused(char reason, const std::string &text) : std::runtime_error(text), reason(reason) {}
    char reason;
};

// Reasons of 281.
constexpr char UNKNOWN_SYMBOL = '0', DUPLICATE_ID = '1', TOO_MUCH = '2', NO_PERMISSION = '3';

/// A request for the market.
struct MarketRequest {
    enum class Kind { Snapshot, Subscribe, End };

    std::string id;  // MDReqID, as the member wrote it.
    Kind kind = Kind::Snapshot;
    std::size_t depth = 0;       // Levels of a side; 0: all that are told.
    bool isIncremental = false;  // Behind the first message it is told changes alone.
    std::string entries;         // Of `0` bids, `1` offers and `2` trades.
    std::vector<std::string> symbols;

    bool has(char entry) const { return entries.find(entry) != std::string::npos; }
};

/// Reads a request for the market of these symbols, or MarketRefused. Of what it has for each symbol these fields are
/// dropped.
MarketRequest readMarketRequest(const FIX::Message &message, const std::map<std::string, Tick> &ticks,
                                const std::set<int> &dropped);

}
