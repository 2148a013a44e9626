#pragma once

#include <quickfix/Responder.h>

#include <cstddef>
#include <functional>
#include <string>

#include "descriptor.h"
#include "framer.h"
#include "inbox.h"
#include "passed_over.h"

namespace edge {

/// A client's connection, and what is to be written to it: the session's way out. No call of it waits. Nothing is
/// written before it is released, behind the commit of what it rests on. What a client doesn't take is kept up to a
/// bound, behind which the connection ends: its session's store has all of it.
class Connection : public FIX::Responder {
public:
    /// What is written of a message that the session sends.
    using Writing = std::function<std::string(const std::string &)>;

    Connection(Descriptor socket, const std::string &read, std::size_t longest, std::size_t mostUnsent, Writing writing)
        : socket_(std::move(socket)),
          framer_(longest),
          passedOver_(longest),
          base_(mostUnsent),
          most_(mostUnsent),
          writing_(std::move(writing)) {
        in_.put(read);
    }

    /// Reads once. Whether the client is still there.
    bool read();

    /// Takes the next message out of what was read; false where there is none yet. What stands in front of it, and is
    /// none, is passed over.
    bool next(std::string &message);

    /// What has found that message, and lists its fields until the next one is taken.
    const Framer &framer() const { return framer_; }

    /// What can't be read of this client.
    PassedOver &passedOver() { return passedOver_; }

    /// Whether there is something to be read.
    bool isReadable() const;

    /// Whether more was read than what has been taken.
    bool hasMore() const { return in_.size(); }

    /// Lets all that was sent so far be written.
    void release() { released_ = out_.size(); }

    /// Forgets what was sent and not released.
    void drop() { out_.resize(released_); }

    /// Writes what it can of what was released. Whether the client is still there.
    bool flush();

    bool send(const std::string &message) override;
    void disconnect() override { isEnding_ = true; }

    /// While this is on a session sends again what it has stored: that is as much as there is.
    void resends(bool isOn) { isResending_ = isOn; }

    int fd() const { return socket_.get(); }
    bool isEnding() const { return isEnding_; }
    bool isOverfull() const;
    bool isWriting() const { return at_ < out_.size(); }
    bool takesMore() const { return out_.size() - at_ <= base_ / 2; }
    std::size_t unsent() const { return out_.size() - at_; }

    /// Whether the client has taken all that was released.
    bool hasTaken() const { return at_ == released_; }

private:
    Descriptor socket_;
    Inbox in_;
    Framer framer_;
    PassedOver passedOver_;
    std::string out_;
    std::size_t at_ = 0, released_ = 0;  // So much of `out_` has been written, and may be.
    const std::size_t base_;
    std::size_t most_;
    const Writing writing_;
    bool isEnding_ = false, isResending_ = false;
};

}
