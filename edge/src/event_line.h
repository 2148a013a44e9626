#pragma once

// A line of venue-events, cut into words. market.cpp and books.cpp read what the venue tells all members by this.

#include <cstddef>
#include <cstring>
#include <string>

namespace edge {

/// The words of a line, one behind another. It refers to the line's bytes.
class EventLine {
public:
    EventLine(const char *line, std::size_t size) : at_(line), end_(line + size) {}

    /// Takes the next word; nothing where there is none.
    std::string word() {
        const char *const from = at_, *const blank = behind();
        at_ = blank < end_ ? blank + 1 : end_;
        return {from, blank};
    }

    /// Whether the next word is this one, which is taken then.
    bool is(const char *word) {
        const std::size_t size = std::strlen(word);
        const bool is = static_cast<std::size_t>(behind() - at_) == size && !std::memcmp(at_, word, size);
        if (is) at_ = at_ + size < end_ ? at_ + size + 1 : end_;
        return is;
    }

    /// Takes the next word as a number of 1 to 15 digits; -1 where it is none.
    long number() {
        const char *const end = behind();
        long value = end > at_ && end - at_ <= DIGITS ? 0 : -1;
        for (; at_ < end && value >= 0; at_++) value = *at_ >= '0' && *at_ <= '9' ? value * 10 + (*at_ - '0') : -1;
        at_ = end < end_ ? end + 1 : end_;
        return value;
    }

    /// What is left of the line.
    const char *rest() const { return at_; }
    std::size_t size() const { return static_cast<std::size_t>(end_ - at_); }

private:
    static constexpr std::ptrdiff_t DIGITS = 15;

    /// Where the present word ends.
    const char *behind() const {
        const void *const blank = std::memchr(at_, ' ', size());
        return blank ? static_cast<const char *>(blank) : end_;
    }

    const char *at_, *const end_;
};

/// Whether the text of an output is of a trade.
inline bool isOfTrade(const char *text, std::size_t size) {
    constexpr char TRADE[] = "|150=F|";
    return ::memmem(text, size, TRADE, sizeof TRADE - 1);
}

}
