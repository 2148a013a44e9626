#pragma once

// Cancels that the edge sends by itself, on the way from trader.h to the venue: of what rests for a member that went
// away, of many orders at once, as a member or an operator asks for, and of what is Day when its day has ended.

#include <cstddef>
#include <map>
#include <set>
#include <string>
#include <vector>

#include "names.h"
#include "open_orders.h"
#include "venue_link.h"

namespace edge {

/// Orders that are to be cancelled in one go: those below a number, of a symbol and a side or of all, or those that an
/// end of the day is behind. They are of one desk or of all: of one also where the member doesn't have that desk any
/// more.
struct Sweep {
    int desk = 0;           // 0: of all desks.
    std::string symbol;     // Empty: of all symbols.
    char side = '\0';       // None: of both.
    std::string name;       // That of its cancels; empty: each has one of the edge's own.
    std::string end;        // Of a day: its orders went to the venue before that. Empty: it is of no day's end.
    long upTo = 0;          // Its orders have lower numbers.
    long known = 0;         // It is known by that: by the first one of these, where the venue's journal has told another.
    long row = 0;           // The number of its row in the record.
    long last = 0;          // That of its last cancel; 0: it is owed, since nobody knows what became of these.
    std::size_t count = 0;  // So many orders it took.
    bool isLast = false;    // Made while the venue is away: it has none of an order that came later.

    bool isOfDay() const { return !end.empty(); }

    /// Whether an operator has asked for it: what a member's own mass cancel asks for has the name of that.
    bool isOfOperator() const { return upTo && name.empty() && !isOfDay(); }

    bool takes(long number, const OpenOrder &order) const {
        const bool isAsked =
            isOfDay() ? order.sent < end : (symbol.empty() || order.symbol == symbol) && (!side || order.side == side);
        const bool isOfDesk = !desk || order.desk == desk || order.owner == desk;
        return number < upTo && isOfDesk && isAsked;
    }
};

/// The cancels of a member that the edge has sent by itself. A sweep is over once the venue has answered all of its
/// cancels. It is kept with these, so that a start, or the venue's return, sends anew what never reached the venue.
class Cancels {
public:
    using Orders = std::map<long, OpenOrder>;

    Cancels(Names &names, VenueLink &link) : names_(names), link_(link) {}

    /// The record has been opened: all sweeps that it has are owed.
    void attach();

    /// The connection to the venue has ended: what is under way is owed.
    void venueLost();

    /// Sends a cancel for each of these orders for which none is under way: how many. Their names are those of the
    /// sweep, or of the edge.
    std::size_t send(const Orders &orders, const Sweep &it = Sweep());

    /// Keeps a sweep of those of these orders that it takes, and sends their cancels: how many. It is of the orders of
    /// now where it isn't known by a number yet. One that takes none is over at once, and so is one of a member for
    /// whose orders others have sent all cancels: else there might be any number. While nobody knows what the venue has
    /// taken in of before, a sweep is owed as well: more orders may come to rest. One of a day's end sends nothing
    /// before that is known, so that each order has one cancel. There are numbers for all that.
    std::size_t begin(Sweep &it, const Orders &orders);

    /// Keeps a sweep of the orders of now, whose cancels go once the venue is there: it, or one that has all of these. As
    /// long as the venue's journal hasn't been read these are all that it will tell of.
    Sweep owe(Sweep it);

    /// The venue is there, and its journal has been read: what was owed until then is of the orders up to this moment.
    void venueBack();

    /// The venue has answered all requests up to this number.
    void answered(long settled);

    /// A request of this number is sent behind which the venue has answered all of before.
    void probed(long number) { probe_ = number; }

    /// The sweeps whose cancels are to be sent anew, once the venue has answered up to this number what was sent
    /// before. They aren't kept here any more.
    std::vector<Sweep> takeOwed(long settled);
    bool isOwed() const { return !sweeps_.empty() && !sweeps_.front().last; }

    /// Whether one of a day's end is: what is Day of a day before may rest.
    bool isEndOwed() const;

    /// Whether one is under way, or owed.
    bool isSweeping() const { return !sweeps_.empty(); }

    /// Whether no sweep that is known by this number is under way.
    bool isOver(long known) const;

    /// Drops from the record what is over.
    void tidy();

private:
    bool areUnderWay(const Orders &orders) const;
    void keep(Sweep &it);

    Names &names_;
    VenueLink &link_;
    std::map<long, long> underWay_;  // Cancels that the venue hasn't answered, and their orders,
    std::set<long> orders_;          // and these by themselves.
    std::vector<Sweep> sweeps_;      // Owed ones first, the others by their last cancels.
    std::vector<long> over_;         // Rows that may go.
    long probe_ = 0;                 // 0: nothing tells yet what the venue has answered.
};

}
