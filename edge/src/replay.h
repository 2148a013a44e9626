#pragma once

#include <sys/types.h>

#include <functional>
#include <string>

#include "descriptor.h"
#include "inbox.h"
#include "venue_place.h"

namespace edge {

/// Where the report to a member begins in a line of venue-events, as `output 17 C1 35=8|..`; 0 where it has none to it.
std::size_t reportIn(const char *line, std::size_t size, const std::string &member);

/// The program venue-events at work: what the journal tells of one member, line by line, among all that it tells. Who
/// drops it ends the program.
class Replay {
public:
    static constexpr long ONCE = -1;

    /// Starts it for a member, as C1: it ends behind what the journal has. Or it goes on as the journal grows, behind
    /// so many commands.
    Replay(const VenuePlace &venue, const std::string &member, long after = ONCE);
    ~Replay();
    Replay(const Replay &) = delete;
    Replay &operator=(const Replay &) = delete;

    /// Where its lines come from, or -1 where no more are to come.
    int fd() const { return out_.get(); }

    /// Whether no more lines are to come of it, and it hasn't ended: it is to be read again soon, to learn how it ends.
    bool isOver() const { return !out_; }

    /// Whether what was read ends within a line.
    bool isWithinLine() const { return in_.size(); }

    /// What is called with a line, or a part of one.
    using Told = std::function<void(const char *, std::size_t)>;

    /// Reads once what there is, and calls `told` with each report: its line, with a bar behind each field; and `seen`,
    /// where there is such a one, with each whole line. Whether the program has ended behind its last line; throws a
    /// std::runtime_error where it can't read the journal.
    bool read(const Told &told, const Told &seen = nullptr);

private:
    bool hasEnded();

    Descriptor out_;
    pid_t child_ = -1;
    Inbox in_;
    const std::string member_, journal_;
};

}
