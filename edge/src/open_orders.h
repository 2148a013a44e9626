#pragma once

#include <deque>
#include <map>
#include <string>

#include "desk_names.h"
#include "fields.h"

namespace edge {

/// What the edge has to know of an order that rests, to cancel it and to say how it is.
struct OpenOrder {
    std::string orderId, symbol;
    char side;
    bool isFilledInPart;
    std::string sent;  // When the order, or the last replace of it, went to the venue: what is Day ends by that.
    long price = 0, quantity = 0, filled = 0, average = 0;  // As its last report has them; no price: a market order.
    char status = '0';                                      // OrdStatus (39).
    long endedBy = 0;                                       // The number of the request that ended it, or 0.
    int desk = FIRST_DESK;                                  // The desk that is told of it,
    int owner = FIRST_DESK;  // and the one that sent it, which the member may have no more.
};

/// The orders of a member that rest at the venue, by their numbers, as its reports tell, and the last of those that
/// have ended.
class OpenOrders {
public:
    static constexpr std::size_t MOST_ENDED = 1000;

    /// Takes in a report of the venue, which this desk is told, of a request that was this owner's.
    void take(const Fields &report, int desk, int owner) {
        const long number = report.number(11);
        const char event = report.byte(150);
        const bool isCancelled = event == '4' && report.has(41);
        const Whose whose{desk, owner};
        if (event == '5') end(report.number(41), report, '5', whose);
        if (isCancelled) end(report.number(41), report, '4', whose);
        if (event == '4' || event == '8' || report.byte(39) == '2') {
            if (!isCancelled) end(number, report, report.byte(39), whose);
        } else if (event) {
            rest(number, report, whose);
        }
    }

    const OpenOrder *find(long number) const { return findIn(orders_, number); }

    /// One of the last orders that have ended, as it was then.
    const OpenOrder *findEnded(long number) const { return findIn(ended_, number); }

    std::size_t size() const { return orders_.size(); }

    /// How many of them this desk has sent.
    std::size_t sizeOf(int owner) const {
        const auto found = sizes_.find(owner);
        return found == sizes_.end() ? 0 : found->second;
    }
    void clear() {
        orders_.clear();
        ended_.clear();
        endings_.clear();
        sizes_.clear();
    }
    const std::map<long, OpenOrder> &all() const { return orders_; }

private:
    struct Whose {
        int desk, owner;
    };

    static const OpenOrder *findIn(const std::map<long, OpenOrder> &orders, long number) {
        const auto found = orders.find(number);
        return found == orders.end() ? nullptr : &found->second;
    }

    /// Takes in what a report says of an order that rests.
    void rest(long number, const Fields &report, const Whose &whose) {
        const auto added = orders_.emplace(number, OpenOrder());
        OpenOrder &it = added.first->second;
        if (!added.second) sizes_[it.owner]--;
        put(report, whose, it);
        sizes_[it.owner]++;
    }

    /// A fill has the time of what the order traded with.
    static void put(const Fields &report, const Whose &whose, OpenOrder &into) {
        const std::string sent = report.byte(150) == 'F' ? into.sent : report.text(52);
        into = {report.text(37), report.text(55), report.byte(54), report.byte(39) == '1', sent};
        into.price = report.number(44);
        into.quantity = report.number(38);
        into.filled = report.number(14);
        into.average = report.number(6);
        into.status = report.byte(39);
        into.desk = whose.desk;
        into.owner = whose.owner;
    }

    /// Takes an order out, and keeps what its last report says of it among the last ones. What a replace says is of the
    /// order in its place.
    void end(long number, const Fields &report, char status, const Whose &whose) {
        if (!ended_.count(number)) endings_.push_back(number);
        OpenOrder &it = ended_[number];
        const auto rested = orders_.find(number);
        if (status == '5' && rested != orders_.end()) it = rested->second;
        else put(report, whose, it);
        it.status = status;
        it.endedBy = report.number(11);
        if (rested != orders_.end()) {
            sizes_[rested->second.owner]--;
            orders_.erase(rested);
        }
        if (endings_.size() <= MOST_ENDED) return;
        ended_.erase(endings_.front());
        endings_.pop_front();
    }

    std::map<long, OpenOrder> orders_, ended_;
    std::deque<long> endings_;          // The numbers of those that have ended, in that order.
    std::map<int, std::size_t> sizes_;  // How many rest, by who has sent them.
};

}
