#pragma once

// What tells two journals apart that have a beginning in common: between the events (streams.h) and stream.h, which
// compares it.

#include <cstdint>
#include <string>

namespace feed {

/// The hash of all lines up to one of them: FNV-1a of 64 bits, of each line with its byte 0A.
class Chain {
public:
    /// Takes the next line.
    void take(const std::string &line);

    /// The hash, in sixteen digits.
    std::string text() const;

private:
    std::uint64_t hash_ = 14695981039346656037u;
};

}
