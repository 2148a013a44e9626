#pragma once

// What a session is told again in its new numbers in pieces, since its engine wasn't sent it in the old ones. day.h
// tells it, a piece a turn, and keeps here how far it is.

#include <cstddef>

#include "database.h"
#include "session_record.h"

namespace edge {

/// The old numbers of what is told again, from the next one to in front of an end. It is kept in the record, with each
/// piece, by the number of the desk. While there is something nobody logs on, so that no other message of the session
/// stands between.
class Owed {
public:
    explicit Owed(const SessionRecord &record);

    /// The record has been read: it goes on with what that has.
    void attach();

    /// Begins: the next number of the session is that of the first message that is told again.
    void begin(long next, long end);

    bool isThere() const { return next_ < end_; }
    long next() const { return next_; }
    long end() const { return end_; }

    /// The next number of the session, as it was behind the last piece: where another one is next, numbers were passed
    /// over since.
    long sender() const { return sender_; }

    /// What stood in front of this number is told, by so many messages more. How many those are in all.
    long reached(long next, std::size_t count);

private:
    void keep();

    const SessionRecord record_;
    long next_ = 0, end_ = 0, sender_ = 0, count_ = 0;
    Statement isMade_, make_, read_, put_, drop_;
};

}
