#pragma once

#include <cstddef>
#include <map>

#include "canonical.h"

namespace edge {

/// What a client sends behind a gap in its numbers. The session keeps that until its number is due, or as long as the
/// connection lasts where the client passes the number over, and has no bound for it.
class Gaps {
public:
    /// Whether the session may be given this message, before it expects this number. One that it would keep behind as
    /// many others as it may keep isn't given: it comes again when the gap is filled. Throws BadBytes where too much
    /// came.
    bool lets(const Judged &message, std::size_t size, long expected);

    /// The session was given this message, expected the one number before and expects the other one now.
    void given(const Judged &message, long before, long now);

    /// There is another connection.
    void clear();

private:
    std::map<long, long> kept_;  // The numbers of what the session keeps, and what each lets it expect behind it.
    std::size_t bytes_ = 0;      // So much came behind gaps.
};

}
