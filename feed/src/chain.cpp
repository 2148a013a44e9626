#include "chain.h"

namespace feed {

namespace {

constexpr std::uint64_t PRIME = 1099511628211u;
constexpr unsigned DIGITS = 16, OF_A_DIGIT = 4;  // Bits.

}

void Chain::take(const std::string &line) {
    for (const char it : line) hash_ = (hash_ ^ static_cast<unsigned char>(it)) * PRIME;
    hash_ = (hash_ ^ static_cast<unsigned char>('\n')) * PRIME;
}

std::string Chain::text() const {
    std::string digits(DIGITS, '0');
    std::uint64_t rest = hash_;
    for (std::size_t at = DIGITS; at--; rest >>= OF_A_DIGIT) digits[at] = "0123456789abcdef"[rest % (1u << OF_A_DIGIT)];
    return digits;
}

}
