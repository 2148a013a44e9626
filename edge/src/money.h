#pragma once

#include <string>

namespace edge {

/// A price times a quantity, or a sum of such, in billionths of what prices are in. The greatest value of an order is
/// some 10^30 of these, and of all that a member can have open some 10^36: 128 bits hold it.
using Money = __int128;

/// Whole units, as a limit of the settings has them.
inline Money moneyOf(long units) {
    return static_cast<Money>(units) * 1000000000;
}

/// It as a decimal, without zeros at its end: 5025.5, or 5025.
inline std::string textOf(Money it) {
    const bool isNegative = it < 0;
    if (isNegative) it = -it;
    std::string digits;
    for (; it || digits.size() < 10; it /= 10)
        digits.insert(digits.begin(), static_cast<char>('0' + static_cast<int>(it % 10)));
    digits.insert(digits.size() - 9, 1, '.');
    digits.erase(digits.find_last_not_of('0') + 1);
    if (digits.back() == '.') digits.pop_back();
    return (isNegative ? "-" : "") + digits;
}

}
