#pragma once

// The requests of a member that are under way to the venue: trader.h puts them here as it sends them, and takes each
// out as the venue answers.

#include <cstddef>
#include <map>

#include "orders.h"

namespace edge {

constexpr int ALL_DESKS = 0;  // In the place of the number of one.

/// The requests that no report has answered yet, by their numbers, and how many of them are each desk's: each look at
/// that costs the same, however many there are.
class UnderWay {
public:
    /// Puts a request there, which goes to the venue by this number.
    Request &add(long number, const Request &it) {
        count(it, 1);
        return all_[number] = it;
    }

    /// Takes the request of this number out. Whether it was there.
    bool end(long number) {
        const auto found = all_.find(number);
        if (found == all_.end()) return false;
        count(found->second, -1);
        all_.erase(found);
        return true;
    }

    void clear() {
        all_.clear();
        counts_.clear();
    }

    const std::map<long, Request> &all() const { return all_; }

    /// How many are of a desk, or of all, and how many of these are orders.
    std::size_t sizeOf(int desk) const { return static_cast<std::size_t>(countOf(desk).all); }
    std::size_t ordersOf(int desk) const { return static_cast<std::size_t>(countOf(desk).orders); }

private:
    struct Count {
        long all = 0, orders = 0;
    };

    void count(const Request &it, long more) {
        for (const int desk : {ALL_DESKS, it.desk}) {
            Count &of = counts_[desk];
            of.all += more;
            of.orders += it.isOrder() ? more : 0;
        }
    }

    Count countOf(int desk) const {
        const auto found = counts_.find(desk);
        return found == counts_.end() ? Count() : found->second;
    }

    std::map<long, Request> all_;
    std::map<int, Count> counts_;  // By the numbers of the desks.
};

}
