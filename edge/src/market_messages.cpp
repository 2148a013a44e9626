#include "market_messages.h"

#include <quickfix/FixFieldNumbers.h>
#include <quickfix/Group.h>

#include <algorithm>
#include <vector>

#include "messages.h"

namespace edge {

namespace {

using FIX::Message;
namespace FIELD = FIX::FIELD;

// Actions of changes (279).
constexpr char NEW = '0', CHANGE = '1', DELETE = '2';

constexpr const char *OVERLAID = "2";  // Of 814: what is newer stands for what is older, and nothing waits.

constexpr std::size_t DAY = 8;  // Of the digits of a time of FIX, in front of a dash.

using Levels = std::vector<Level>;

/// Puts entries of a symbol into a message, each with what makes it a change, or with nothing of that.
class Entries {
public:
    Entries(Message &into, const std::string &symbol, const Tick &tick) : into_(into), symbol_(symbol), tick_(tick) {}

    void add(char action, char type, const Level &level) {
        FIX::Group it = entry(action, type, level.price);
        if (action != DELETE) {
            it.setField(FIELD::MDEntrySize, std::to_string(level.quantity));
            it.setField(FIELD::NumberOfOrders, std::to_string(level.orders));
        }
        put(it);
    }

    void add(char action, const LastTrade &trade) {
        FIX::Group it = entry(action, TRADE, trade.price);
        it.setField(FIELD::MDEntrySize, std::to_string(trade.quantity));
        it.setField(FIELD::MDEntryDate, trade.time.substr(0, DAY));
        if (trade.time.size() > DAY) it.setField(FIELD::MDEntryTime, trade.time.substr(DAY + 1));
        put(it);
    }

    /// There may be none.
    void end() {
        if (!count_) into_.setField(FIELD::NoMDEntries, "0");
    }

private:
    /// An entry, whose first field is that of its group: of the whole its type, and of changes its action.
    FIX::Group entry(char action, char type, long price) const {
        static const FIX::message_order order(279, 269, 55, 270, 271, 272, 273, 346, 0);
        FIX::Group it(FIELD::NoMDEntries, action ? FIELD::MDUpdateAction : FIELD::MDEntryType, order);
        if (action) {
            it.setField(FIELD::MDUpdateAction, std::string(1, action));
            it.setField(FIELD::Symbol, symbol_);
        }
        it.setField(FIELD::MDEntryType, std::string(1, type));
        it.setField(FIELD::MDEntryPx, tick_.priceOf(price));
        return it;
    }

    void put(const FIX::Group &it) {
        into_.addGroup(it);
        count_++;
    }

    Message &into_;
    const std::string &symbol_;
    const Tick &tick_;
    std::size_t count_ = 0;
};

/// Whether a price stands in front of another one on its side of the book.
bool isBetter(char type, long price, long other) {
    return type == BID ? price > other : price < other;
}

/// The levels of one side that the others lack at their prices.
Levels lackedBy(char type, const Levels &others, const Levels &those) {
    Levels lacked;
    auto other = others.begin();
    for (const Level &it : those) {
        while (other != others.end() && isBetter(type, other->price, it.price)) ++other;
        if (other == others.end() || other->price != it.price) lacked.push_back(it);
    }
    return lacked;
}

/// What has changed on a side: first what has gone, so that no more levels are there at a time than were asked for.
void addChanges(Entries &into, char type, const Levels &before, const Levels &now) {
    for (const Level &it : lackedBy(type, now, before)) into.add(DELETE, type, it);
    for (const Level &it : lackedBy(type, before, now)) into.add(NEW, type, it);
    auto old = before.begin();
    for (const Level &it : now) {
        while (old != before.end() && isBetter(type, old->price, it.price)) ++old;
        if (old != before.end() && old->price == it.price && !(*old == it)) into.add(CHANGE, type, it);
    }
}

}

Message wholeOf(const MarketRequest &request, const std::string &symbol, const Tick &tick, const Picture &now) {
    Message told = made("W");
    told.setField(FIELD::MDReqID, request.id);
    told.setField(FIELD::Symbol, symbol);
    if (request.kind == MarketRequest::Kind::Subscribe) told.setField(FIELD::ApplQueueResolution, OVERLAID);
    Entries entries(told, symbol, tick);
    for (const Level &it : now.bids) entries.add('\0', BID, it);
    for (const Level &it : now.offers) entries.add('\0', OFFER, it);
    if (now.trade.place) entries.add('\0', now.trade);
    entries.end();
    return told;
}

Message changesOf(const MarketRequest &request, const std::string &symbol, const Tick &tick, const Picture &before,
                  const Picture &now) {
    Message told = made("X");
    told.setField(FIELD::MDReqID, request.id);
    told.setField(FIELD::ApplQueueResolution, OVERLAID);
    Entries entries(told, symbol, tick);
    addChanges(entries, BID, before.bids, now.bids);
    addChanges(entries, OFFER, before.offers, now.offers);
    if (now.trade.place && now.trade.place != before.trade.place) entries.add(NEW, now.trade);
    entries.end();
    return told;
}

Message marketRefusal(const Message &asked, const MarketRefused &why) {
    Message told = made("Y");
    copy(asked, told, FIELD::MDReqID);
    if (why.reason) told.setField(FIELD::MDReqRejReason, std::string(1, why.reason));
    told.setField(FIELD::Text, std::string(SAID_BY_EDGE) + why.what());
    return told;
}

}
