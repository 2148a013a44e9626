#pragma once

// The books of all symbols of a member's venues, for market_data.h. Each is in the books of the venue that has the
// symbol.

#include <algorithm>
#include <map>
#include <string>
#include <vector>

#include "books.h"

namespace edge {

/// The books of several venues, by their symbols.
class Shelf {
public:
    /// Adds the books of a venue, which has these symbols.
    void add(const std::vector<std::string> &symbols, const Books &books) {
        for (const std::string &symbol : symbols) books_[symbol] = &books;
    }

    const Book &of(const std::string &symbol) const { return books_.at(symbol)->of(symbol); }

    /// Whether the book of a symbol is that of the market now, and whether that of any is.
    bool isThere(const std::string &symbol) const { return books_.at(symbol)->isThere(); }
    bool isAnyThere() const {
        return std::any_of(books_.begin(), books_.end(), [](const auto &it) { return it.second->isThere(); });
    }

    /// Whether nothing more is to come of the last command of any venue.
    bool isSettled() const {
        return std::all_of(books_.begin(), books_.end(), [](const auto &it) { return it.second->isSettled(); });
    }

private:
    std::map<std::string, const Books *> books_;
};

}
