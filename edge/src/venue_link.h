#pragma once

#include <chrono>
#include <cstddef>
#include <functional>
#include <string>

#include "descriptor.h"
#include "fields.h"
#include "inbox.h"

namespace edge {

/// A member's connection to the venue, in the venue's profile. No call of it waits.
class VenueLink {
public:
    enum class State { Down, Connecting, LoggingOn, Up };

    /// Of the port of this member at an address.
    VenueLink(const std::string &host, int port, const std::string &member);

    /// Begins to connect.
    void connect();

    /// Goes on where the connection has something: calls `told` with each whole message behind the Logon. Whether it
    /// still stands.
    bool read(const std::function<void(const Fields &)> &told);

    /// Puts a message behind what is to be written: its MsgSeqNum.
    long send(const char *type, const std::string &body, const std::string &time);

    /// Lets all that was sent so far be written: what it rests on is committed.
    void release() { released_ = out_.size(); }

    /// Writes what it can of what was released. Whether the connection still stands.
    bool flush();

    /// Ends the connection, if there is one.
    void end();

    State state() const { return state_; }
    int fd() const { return socket_.get(); }
    bool isWriting() const { return state_ == State::Connecting || !out_.empty(); }
    std::size_t unsent() const { return out_.size(); }
    long sent() const { return number_; }

    /// Whether the last look at it filled its place: there may be more.
    bool hasMore() const { return hasMore_; }
    const std::string &why() const { return why_; }

    /// What the connection waits for that has stood for seconds without an answer, in words; else nothing.
    std::string waitsFor() const;

private:
    using Clock = std::chrono::steady_clock;

    std::string notConnected() const;
    bool fail(const std::string &why);
    bool take(const Fields &message, const std::function<void(const Fields &)> &told);

    const std::string host_;
    const int port_;
    const std::string member_;
    Descriptor socket_;
    State state_ = State::Down;
    Inbox in_;
    std::string out_, why_;
    std::size_t released_ = 0;  // So much of `out_` may be written.
    long number_ = 0;
    bool hasMore_ = false;
    Clock::time_point loggingOnSince_;
};

}
