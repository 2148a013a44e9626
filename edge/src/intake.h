#pragma once

#include <cstddef>

#include "bucket.h"

namespace edge {

/// How fast a member's client is read, in front of all that looks at a message: by what each message costs the edge,
/// and by its bytes. While there is no room nothing is read and nothing is answered, and TCP holds the client back. It
/// is the member's, not the connection's: whoever connects anew finds it as it was.
class Intake {
public:
    enum class Cost {
        PassedOn,  // A request that went on to the venue.
        Looked,    // All else that isn't answered, as a Heartbeat or what was sent before.
        Answered,  // What the edge itself answers: that is kept in the session's store.
    };

    /// So many messages in a second of those that go on to the venue, and so many bytes of all.
    Intake(std::size_t messages, std::size_t bytes);

    /// Whether it may be read. Once all room is used there is none before there is some for a piece: else who sends too
    /// much would be read message by message, each with a turn and a sync of its own.
    bool hasRoom();

    /// How long there is no room, as the last look found it.
    std::chrono::milliseconds pause() const {
        return std::max(messages_.pause(leastOf(someMessages_)), bytes_.pause(leastOf(someBytes_)));
    }

    /// A message of this size was read.
    void took(std::size_t size, Cost cost);

    /// So many messages were sent again.
    void sentAgain(long count) { messages_.take(static_cast<double>(count)); }

private:
    double leastOf(double some) const { return isUsed_ ? some : 1; }

    Bucket messages_, bytes_;
    const double someMessages_, someBytes_;  // A piece.
    bool isUsed_ = false;
};

}
