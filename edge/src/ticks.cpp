#include "ticks.h"

#include <cstddef>
#include <limits>
#include <stdexcept>

namespace edge {

namespace {

constexpr int DECIMALS = 9;
constexpr std::size_t DIGITS = 9;  // In front of the point: so billionths are below what a long long holds.

bool isDigit(char it) {
    return it >= '0' && it <= '9';
}

/// A text of digits with at most one point as a whole number of billionths, or -1.
long long billionths(const std::string &text) {
    const std::size_t point = text.find('.');
    const std::string whole = text.substr(0, point);
    std::string part = point == std::string::npos ? "" : text.substr(point + 1);
    while (part.size() > DECIMALS && part.back() == '0') part.pop_back();
    if ((whole.empty() && part.empty()) || whole.size() > DIGITS || part.size() > DECIMALS) return -1;
    part.append(DECIMALS - part.size(), '0');
    long long value = 0;
    for (const char it : whole + part) {
        if (!isDigit(it)) return -1;
        value = value * 10 + (it - '0');
    }
    return value;
}

long long power(int of) {
    long long value = 1;
    for (; of > 0; of--) value *= 10;
    return value;
}

}

Tick::Tick(const std::string &text) : text_(text), decimals_(0), mantissa_(0) {
    const long long value = billionths(text);
    if (value <= 0) throw std::invalid_argument("no step of a price: " + text);
    const std::size_t point = text.find('.');
    decimals_ = point == std::string::npos ? 0 : static_cast<int>(text.size() - point - 1);
    if (decimals_ > DECIMALS) throw std::invalid_argument("a step of more than nine decimals: " + text);
    step_ = value;
    mantissa_ = static_cast<long>(value / power(DECIMALS - decimals_));
    if (mantissa_ > std::numeric_limits<long>::max() / MOST)
        throw std::invalid_argument("too great a step of so many decimals: " + text);
}

long Tick::stepsOf(const std::string &price) const {
    const long long value = billionths(price);
    if (value <= 0 || value % step_ || value / step_ > MOST) return 0;
    return static_cast<long>(value / step_);
}

std::string Tick::priceOf(long steps) const {
    if (steps < 0 || steps > MOST) throw std::invalid_argument("no price of the venue: " + std::to_string(steps));
    std::string digits = std::to_string(steps * mantissa_);
    if (!decimals_) return digits;
    const std::size_t decimals = static_cast<std::size_t>(decimals_);
    if (digits.size() <= decimals) digits.insert(0, decimals + 1 - digits.size(), '0');
    return digits.insert(digits.size() - decimals, 1, '.');
}

long wholeQuantity(const std::string &text) {
    const long long value = billionths(text), one = power(DECIMALS);
    return value <= 0 || value % one || value / one > MOST ? 0 : static_cast<long>(value / one);
}

}
