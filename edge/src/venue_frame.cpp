#include "venue_frame.h"

#include <algorithm>
#include <cstring>

namespace edge {

namespace {

const char HEAD[] = "8=FIX.4.4\0019=";
constexpr std::size_t HEAD_SIZE = sizeof HEAD - 1;
constexpr std::size_t TRAILER = 7;  // 10=123 and its end.
constexpr std::size_t DIGITS = 5;   // Of a BodyLength.

constexpr VenueFrame NONE{VenueFrame::Kind::None, 0, 0, 0}, BAD{VenueFrame::Kind::Bad, 0, 0, 0};

/// Whether the last field is the sum of all in front of it.
bool isTrailer(const char *bytes, std::size_t at) {
    unsigned sum = 0;
    for (std::size_t i = 0; i < at; i++) sum += static_cast<unsigned char>(bytes[i]);
    sum %= 256;
    const char wanted[] = {'1', '0', '=', static_cast<char>('0' + sum / 100), static_cast<char>('0' + sum / 10 % 10),
                           static_cast<char>('0' + sum % 10), '\1'};
    return !std::memcmp(bytes + at, wanted, TRAILER);
}

}

VenueFrame venueFrame(const char *bytes, std::size_t count, std::size_t longest) {
    if (std::memcmp(bytes, HEAD, std::min(count, HEAD_SIZE))) return BAD;
    std::size_t length = 0, at = HEAD_SIZE;
    for (; at < count && bytes[at] != '\1'; at++) {
        if (bytes[at] < '0' || bytes[at] > '9' || at - HEAD_SIZE == DIGITS || (at == HEAD_SIZE && bytes[at] == '0'))
            return BAD;
        length = length * 10 + static_cast<std::size_t>(bytes[at] - '0');
    }
    if (at >= count) return NONE;
    if (!length || length > longest) return BAD;
    const std::size_t body = at + 1, end = body + length;
    if (count < end + TRAILER) return NONE;
    if (!isTrailer(bytes, end)) return BAD;
    return {VenueFrame::Kind::Whole, end + TRAILER, body, end};
}

}
