#include "garbled.h"

namespace edge {

namespace {
constexpr std::size_t MOST_AGAIN = 3;  // While the same number is asked for.
}

Garbled::Act Garbled::came(long expected, std::size_t count) {
    if (gap_ != expected) again_ = 0;
    if (gap_ != expected || !count) return Act::PassOver;
    again_ += count;
    return again_ >= MOST_AGAIN ? Act::End : Act::AskAgain;
}

void Garbled::good(long number, long expected) {
    if (number <= expected || gap_ == expected) return;
    gap_ = expected;
    again_ = 0;
}

std::string Garbled::why() const {
    return "message " + std::to_string(gap_) + " was asked for " + std::to_string(again_) +
           " times, and what came can't be read";
}

}
