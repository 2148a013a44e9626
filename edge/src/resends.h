#pragma once

#include <quickfix/Message.h>

#include <string>

namespace edge {

/// A member's ResendRequest of many messages, which its session is given as several of few: the library holds all that
/// it sends again in memory, and nothing else is done meanwhile. New reports go out between two of them.
class Resends {
public:
    static constexpr long PIECE = 1000;

    /// Takes one in, in the place of one that isn't done: who asks again begins where it is.
    void ask(const std::string &message, long first, long last);

    bool isDue() const { return next_ <= last_; }
    long last() const { return last_; }

    /// All that it asks for below this number has been sent again.
    long reached() const { return next_; }

    /// The next piece, as the session is to be given it: up to a message that is kept, where that is the next one from
    /// there on, or of as many numbers as a piece has.
    FIX::Message next(long kept);

    void clear() { *this = Resends(); }

private:
    std::string message_;
    long next_ = 1, last_ = 0;
    bool isCounted_ = false;  // The session has counted it.
};

}
