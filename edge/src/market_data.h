#pragma once

// What a member is told of the market, as it has asked for that (35=V). The member's thread reads the market into
// books.h, and lets this tell in each turn what the member's client may take.

#include <quickfix/Session.h>

#include <chrono>
#include <cstddef>
#include <deque>
#include <functional>
#include <map>
#include <set>
#include <string>
#include <vector>

#include "shelf.h"
#include "market_requests.h"
#include "settings.h"
#include "ticks.h"

namespace edge {

/// What was told of a symbol's book, or is to be: the best levels of each side, and the last trade.
struct Picture {
    std::vector<Level> bids, offers;
    LastTrade trade;

    bool operator==(const Picture &other) const {
        return bids == other.bids && offers == other.offers && trade.place == other.trade.place;
    }
};

/// The market for one member's client: the requests that are open, and what was told for each. A client that takes
/// little is told the newest state, with what changed since it was told last, and nothing waits for it.
class MarketData {
public:
    static constexpr std::size_t MOST_REQUESTS = 16, MOST_LEVELS = 1000;

    MarketData(const MemberSettings &member, const std::map<std::string, Tick> &ticks, const Shelf &books);

    void attach(FIX::Session &session) { session_ = &session; }

    /// Takes a request of the member's client, or answers why not.
    void asked(const FIX::Message &message);

    /// What was told may not have come: each request is told the whole anew.
    void beginAnew();

    /// The client is gone, and its requests with it.
    void end() { requests_.clear(); }

    /// Tells what is due, as long as the client has room, of the symbols whose books are those of the market now.
    void tell(const std::function<bool()> &hasRoom);

    /// How long of this time it may be until something is due.
    std::chrono::milliseconds pause(std::chrono::milliseconds most) const;

    std::size_t requests() const { return requests_.size(); }

    /// Whether a request that goes on has this symbol.
    bool isTaking(const std::string &symbol) const;

private:
    using Clock = std::chrono::steady_clock;

    /// One symbol of a request, and what was told of it; version 0: nothing.
    struct Sight {
        std::string symbol;
        long version = 0;
        bool isNew = true;  // It was never told, so nothing has to be waited for.
        Picture told;
    };

    struct Open {
        MarketRequest request;
        std::vector<Sight> sights;
    };

    using Requests = std::deque<Open>;

    void take(MarketRequest request);
    Requests::iterator find(const std::string &id);
    void refuse(const FIX::Message &message, const MarketRefused &why);
    bool wants(const Open &it, const Sight &sight) const;
    bool mayTell(const Open &it, const Sight &sight) const;
    bool isTold(Open &it, bool isDue, const std::function<bool()> &hasRoom);
    void tell(const MarketRequest &request, Sight &sight);
    bool isBehind(const Open &it) const;
    Picture pictureOf(const MarketRequest &request, const std::string &symbol) const;
    void send(FIX::Message &message);

    const MemberSettings &member_;
    const std::map<std::string, Tick> &ticks_;
    const Shelf &books_;
    const std::size_t mostLevels_;
    FIX::Session *session_ = nullptr;
    Requests requests_;  // Those that have waited longest are in front.
    Clock::time_point dueAt_;
    bool hasTold_ = false;
};

}
