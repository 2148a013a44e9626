#pragma once

// What a member asks of the symbols (35=x), and what it is told when one of them is halted (35=f).

#include <quickfix/Session.h>

#include <functional>
#include <map>
#include <set>
#include <string>
#include <vector>

#include "market_data.h"
#include "settings.h"
#include "traders.h"

namespace edge {

/// The venues' symbols for one member's client: which there are, with their steps and the member's limits, and whether
/// an operator has halted them.
class Securities {
public:
    Securities(const Settings &settings, const Traders &traders, const MarketData &market);

    void attach(FIX::Session &session) { session_ = &session; }

    /// Answers which symbols there are (x).
    void asked(const FIX::Message &message);

    /// Tells of each symbol that was halted, or let trade again, since the client was told, where it wants to know: it
    /// has subscribed for that, or takes the symbol's market.
    void tell(const std::function<bool()> &hasRoom);

    /// Whether a request of its own goes on, and whether there may be something to tell.
    bool isWatching() const { return !watched_.empty(); }
    bool isBehind() const;

    /// What was told may not have come.
    void beginAnew();

    /// The client is gone.
    void end();

private:
    std::string refusalOf(const FIX::Message &asked) const;
    std::vector<std::string> symbolsFor(const FIX::Message &asked) const;
    bool isWatched(const std::string &symbol) const;
    bool isTold(const std::string &symbol) const;
    FIX::Message listOf(const FIX::Message &asked, const std::vector<std::string> &symbols);
    void add(FIX::Message &into, const std::string &symbol) const;
    void send(FIX::Message &message) const;

    const Settings &settings_;
    const Traders &traders_;
    const std::vector<std::string> symbols_;  // In the order of the venues, and of each venue's own.
    const MarketData &market_;
    FIX::Session *session_ = nullptr;
    std::set<std::string> watched_;     // By a request of its own.
    std::map<std::string, bool> told_;  // Whether the client was told that a symbol is halted.
    std::set<std::string> changed_;     // Of these it was told by a SecurityStatus.
    bool isUnsure_ = false;             // What was told of these may not have come.
};

}
