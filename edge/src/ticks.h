#pragma once

#include <string>

#include "money.h"

namespace edge {

/// The most of a price and of a quantity that the venue takes.
constexpr long MOST = 1000000;

/// The step of a symbol's price: a member's decimals are whole numbers of it, as the venue wants them.
class Tick {
public:
    /// A step as 1, 0.01 or 0.25; what is none, or has more than nine decimals, is a std::invalid_argument.
    explicit Tick(const std::string &text);

    /// How many steps this price is: 0 where it is none, is above what the venue takes, or no whole number of steps.
    long stepsOf(const std::string &price) const;

    /// The price of so many steps, with as many decimals as the step has. Of more than the venue takes it is a
    /// std::invalid_argument.
    std::string priceOf(long steps) const;

    /// What so many come to at a price of so many steps.
    Money valueOf(long steps, long quantity) const { return static_cast<Money>(step_) * steps * quantity; }

    const std::string &text() const { return text_; }

private:
    std::string text_;
    int decimals_;
    long mantissa_;
    long long step_ = 0;  // In billionths.
};

/// A quantity of FIX as a whole number, as 100 or 100.00: 0 where it is none, or isn't whole, or above what the venue
/// takes.
long wholeQuantity(const std::string &text);

}
