#pragma once

#include <map>
#include <mutex>
#include <set>
#include <string>
#include <utility>
#include <vector>

#include "desk_names.h"
#include "fields.h"
#include "money.h"
#include "orders.h"
#include "ticks.h"

namespace edge {

/// What a member's orders may come to, and what it holds: of orders that rest at the venue, and of requests that are
/// under way to it. A replace that is under way counts as its order or as what it asks for, whichever is more. Each
/// order is of one of the member's desks.
class Exposure {
public:
    explicit Exposure(const std::map<std::string, Tick> &ticks) : ticks_(ticks) {}

    /// An order, or a replace of the order of this number, goes to the venue by its own number. It is valued at this
    /// price.
    void sent(long number, long original, const Request &it, long price);

    /// A report of the venue to the member, of a request of this desk.
    void take(const Fields &report, int desk = FIRST_DESK);

    /// No report will answer this request.
    void dropped(long number) { end(number); }

    /// The journal is read anew.
    void clear();

    /// The value of all that is open, as it would be with this request in the place of the order that it replaces; that
    /// of what the request's desk has open; and the quantity of its symbol and side.
    Money valueWith(long original, const Request &it, long price) const;
    Money desksValueWith(long original, const Request &it, long price) const;
    long quantityWith(long original, const Request &it) const;

    /// What would be open of a request: a replace of an order that is filled in part asks for less than its quantity.
    long openOf(long original, const Request &it) const;

    /// Whether the order of this number is known, and has the symbol and the side of this replace.
    bool isOf(long original, const Request &it) const { return orderOf(original, it); }

    /// What it has bought of a symbol less what it has sold, by all fills that the journal tells.
    long positionOf(const std::string &symbol) const;

    /// The numbers of its orders that may rest, or come to, and that one of this symbol, side and price would trade
    /// with. No price: it trades with each.
    std::vector<long> crossedBy(const std::string &symbol, char side, long price) const;

    /// The value of all that a desk has open, or of all where none is named.
    Money value(int desk) const;

    /// For who looks from outside, of any thread.
    Money shownValue() const;

private:
    /// What a request that is under way asks for: its whole quantity.
    struct Ask {
        long price, quantity;
        bool mayStay;
    };

    /// An order, with what is under way for it.
    struct Order {
        std::string symbol;
        char side = '1';
        long number = 0, price = 0, left = 0, filled = 0;  // As it rests; nothing left: it doesn't.
        bool mayStay = true;                               // Or it is over with the reports of its command.
        int desk = FIRST_DESK;
        std::map<long, Ask> asks;

        bool isOpen() const { return left || !asks.empty(); }
        long quantity() const;
        Money value(const Tick &tick) const;
        bool isOf(const Request &it) const { return symbol == it.symbol && side == it.side; }
        long boldest() const;
    };

    /// What is counted of an order.
    struct Counted {
        Money value;
        long quantity, boldest;
        int desk;
    };

    using Place = std::pair<std::string, char>;  // A symbol and a side.
    using Orders = std::map<long, Order>;

    template <class Change>
    void change(Orders::iterator at, const Change &how);
    Counted countedOf(const Order &it) const;
    void count(long key, const Order &it, const Counted &before, const Counted &now);
    void end(long number);
    void takeExecution(const Fields &report, int desk);
    Orders::iterator find(long number);
    Orders::iterator place(long number, const std::string &symbol, char side);
    const Order *orderOf(long original, const Request &it) const;

    const std::map<std::string, Tick> &ticks_;
    Orders orders_;              // By the number of the first request that is known of each.
    std::map<long, long> keys_;  // Of the numbers that an order has, or is asked to have.
    Money value_ = 0;
    std::map<int, Money> values_;  // Of each desk.
    std::map<Place, long> quantities_;
    std::map<Place, std::set<std::pair<long, long>>> prices_;  // Of orders that may rest, with their keys.
    std::map<std::string, long> positions_;
    mutable std::mutex mutex_;  // Of what is shown.
    Money shown_ = 0;
};

}
