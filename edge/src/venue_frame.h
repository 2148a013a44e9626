#pragma once

// Where a message of the venue ends in the bytes of venue_link.h. What members send isn't cut here, but by framer.h.

#include <cstddef>

namespace edge {

/// What some bytes of the venue begin with, in its profile: BeginString, BodyLength, a body of so many bytes, CheckSum.
struct VenueFrame {
    enum class Kind { None, Whole, Bad };

    Kind kind;              // None: the rest of it hasn't come.
    std::size_t size;       // Of the whole message, or 0.
    std::size_t body, end;  // Where its body begins and ends.
};

/// Looks at bytes of the venue, whose messages have bodies of so many bytes at most.
VenueFrame venueFrame(const char *bytes, std::size_t count, std::size_t longest);

}
