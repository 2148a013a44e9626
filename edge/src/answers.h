#pragma once

// What the edge itself answers a member, and what it goes on to tell of its own accord: of the market, of symbols, of
// the member's orders and trades. The library's call for such a question comes here from member.cpp.

#include <quickfix/Session.h>

#include <chrono>
#include <cstddef>
#include <functional>
#include <string>

#include "market_data.h"
#include "order_status.h"
#include "own_trades.h"
#include "securities.h"
#include "settings.h"
#include "shelf.h"
#include "traders.h"

namespace edge {

/// The questions of one member's client. None of them reaches the venue, and no answer is told again: each says how
/// something is at its moment.
class Answers {
public:
    using HasRoom = std::function<bool()>;

    Answers(const Settings &settings, Record &record, const Traders &traders, const Shelf &books)
        : market_(settings.member, settings.ticks, books),
          securities_(settings, traders, market_),
          orders_(settings.member, settings.ticks, traders),
          trades_(settings.member, settings.ticks, record) {}

    void attach(FIX::Session &session);

    /// The client has logged on at this time of its own clock.
    void begin(const std::string &loggedOnAt) { loggedOnAt_ = loggedOnAt; }

    /// Takes a question of this type, if it is one. One that was asked before the client logged on, and is sent again
    /// since its number was asked for, is of a moment that has gone.
    bool asked(const std::string &type, const FIX::Message &message);

    /// Tells what is due, as long as the client has room; of the market where its books are those of now. So many
    /// messages of the store were looked at for that.
    long tell(const HasRoom &hasRoom, bool isMarketThere);

    /// How long of this time it may be until something is due.
    std::chrono::milliseconds pause(std::chrono::milliseconds most, bool isMarketThere) const;

    /// What was told may not have come.
    void beginAnew();

    /// The client is gone.
    void end();

    /// Whether there is nothing that may have to be told.
    bool isIdle() const { return !open() && !securities_.isWatching(); }

    /// So many questions are open, to be answered later.
    std::size_t open() const { return market_.requests() + trades_.isBehind(); }

private:
    bool isOfBefore(const FIX::Message &message) const;

    MarketData market_;
    Securities securities_;
    OrderStatus orders_;
    OwnTrades trades_;
    std::string loggedOnAt_;
};

}
