#pragma once

#include <quickfix/Message.h>

#include <map>
#include <set>
#include <stdexcept>
#include <string>

#include "names.h"
#include "open_orders.h"
#include "ticks.h"

namespace edge {

/// A request that the edge doesn't send on, with the reason in FIX's numbers (103 or 102) and in words.
class Refused : public std::runtime_error {
public:
    Refused(int reason, const std::string &text) : std::runtime_error(text), reason(reason) {}
    int reason;
};

/// What a member asks for, in the venue's terms.
struct Request {
    char type;                   // D, F, G or q.
    std::string name, original;  // ClOrdID and OrigClOrdID, as the member wrote them.
    std::string symbol;
    char side = '1';               // Of q: none, where it is about both.
    long quantity = 1, price = 0;  // Whole numbers; no price: a market order.
    char timeInForce = '\0';       // None: the member gave none.
    long sequence = 0;             // The MsgSeqNum that it went to the venue with,
    std::string time;              // and when that was.
    int desk = 1;                  // Whose it is.

    bool isOrder() const { return type == 'D'; }
    bool isMassCancel() const { return type == 'q'; }

    /// Whether it stays over the ends of days: what gives no TimeInForce is Day, as FIX has it.
    bool isGoodTillCancel() const { return timeInForce == '1'; }

    /// Whether it asks for an order that may rest.
    bool mayRest() const { return type == 'D' || type == 'G'; }

    /// Whether what isn't traded at once may rest: not of a market order, nor of TimeInForce 3 and 4.
    bool mayStay() const { return price && timeInForce != '3' && timeInForce != '4'; }
};

/// Reads requests of members: what the venue doesn't have is refused, or dropped where the settings say so.
class Orders {
public:
    Orders(const std::map<std::string, Tick> &ticks, const std::set<int> &dropped) : ticks_(ticks), dropped_(dropped) {}

    /// The names and the kind of a request of a desk, whatever else is wrong with it.
    static Request headOf(const FIX::Message &message, int desk);

    /// Whether a request may have this name: 1 to 64 bytes that print, and not as the edge's own begin.
    static bool isName(const std::string &name);

    /// The whole request, or Refused.
    Request read(const FIX::Message &message, int desk) const;

private:
    void needKnownFields(const FIX::Message &message, char type) const;
    void readMassCancel(const FIX::Message &message, Request &it) const;

    const std::map<std::string, Tick> &ticks_;
    const std::set<int> &dropped_;
};

/// The body of a request for the venue, behind the header of its profile; the original is the number of the order.
std::string bodyFor(const Request &it, long number, long original, const std::string &time);

/// The body of a cancel of this order, by the edge itself.
std::string cancelFor(const OpenOrder &order, long number, long original, const std::string &time);

/// The body of a cancel of an order that isn't there, which the venue answers once it has answered all before it.
std::string probeFor(const std::string &symbol, long number, const std::string &time);

}
