#pragma once

// What the trader of one venue has to know of a member's other venues, for what is about all of them: limits, and a
// cancel of all orders. traders.h says it.

#include <cstddef>
#include <functional>
#include <string>

#include "cancels.h"
#include "money.h"

namespace edge {

/// The member's other venues, as those of one venue ask for them. A member with one venue has none.
struct Elsewhere {
    /// The value of what a desk has open there, or all desks where none is named, and how many orders that are.
    std::function<Money(int desk)> openValue = [](int) { return Money(0); };
    std::function<std::size_t(int desk)> openOrders = [](int) { return std::size_t(0); };

    /// Whether that is known: each of them has said what it has taken, at least once.
    std::function<bool()> isKnown = [] { return true; };

    /// Whether a request there that has no name goes by this one.
    std::function<bool(const std::string &name)> isNameless = [](const std::string &) { return false; };

    /// Sends the cancels of a sweep there too, or keeps it where a venue is away: how many orders are cancelled now.
    /// What has to be said of that is put into the words.
    std::function<std::size_t(const Sweep &it, std::string &words)> sweep = [](const Sweep &, std::string &) {
        return std::size_t(0);
    };
};

}
