#pragma once

// What a member's client says, on the way from connection.h to the session. Each message is judged here, and what isn't
// good is answered here or passed over. The session hands requests on to traders.h.

#include <poll.h>
#include <quickfix/Message.h>
#include <quickfix/Session.h>

#include <chrono>
#include <cstddef>
#include <memory>
#include <string>

#include "answers.h"
#include "canonical.h"
#include "connection.h"
#include "day.h"
#include "descriptor.h"
#include "gaps.h"
#include "garbled.h"
#include "intake.h"
#include "logons.h"
#include "resends.h"
#include "settings.h"
#include "store.h"
#include "traders.h"

namespace edge {

/// A member's conversation with its client: with one at a time, or with none. The member's thread alone calls it, and
/// ends the client's connection where a call says why. Some calls need a client: all from `read` to `end`.
class Conversation {
public:
    Conversation(const MemberSettings &member, const Logons &logons, Traders &traders, Day &day, Answers &answers);

    /// Gives it its session and store, before it begins.
    void attach(FIX::Session &session, Store &store);

    /// Begins with this connection, of which these bytes were read. Why it is to end, or nothing.
    std::string begin(Descriptor socket, const std::string &bytes, const std::string &from);

    /// Reads once, and passes on what came. Why the connection is to end, or nothing.
    std::string read();

    /// Gives the session what whole messages there are, while the client may be read. Why the connection is to end, or
    /// nothing.
    std::string passMessages();

    /// Tells the client by a Logout why its connection ends.
    void logOut(const std::string &why, bool isEdges = true);

    /// The connection is gone.
    void end();

    /// Sends the next piece again of what the client asked for, where the client takes it.
    void sendAgain();

    /// Behind its end: where its engine has said that it expects a number above ours, the session goes on with that.
    void goUp();

    /// Lets all that was sent so far be written, which is committed.
    void release();

    /// Forgets what was sent and not released.
    void drop();

    /// Writes what it can of what was released. Why the connection is to end, or nothing.
    std::string flush();

    /// What poll looks for at the connection, and how long of this time the client lets it wait. They come in this
    /// order.
    pollfd watched();
    std::chrono::milliseconds pause(std::chrono::milliseconds most);

    /// Why the connection of a client ends whose session has ended: with the words of its own Logout, where that has
    /// some.
    std::string endWords() const;

    bool isOn() const { return client_ != nullptr; }
    bool isEnding() const { return client_ && client_->isEnding(); }

    /// Whether messages of the client wait until it may be read again.
    bool isHeldUp() const { return isHeldUp_; }

    /// Whether the client is read now.
    bool isRead() { return client_ && mayRead() && !isHeldUp_; }

    /// Whether the client has closed the connection, which may be seen before all that it sent is read.
    bool hasLeft() const;

    std::size_t unsent() const { return client_ ? client_->unsent() : 0; }

    /// Whether more may be told to it than what it asks for message by message: it has taken all of before, so that
    /// what it was sent of reports is known, and it has room for what that costs.
    bool mayBeTold() { return client_->hasTaken() && intake_.hasRoom(); }

    /// So many messages were told so, or looked at.
    void told(long count) { intake_.sentAgain(count); }

    /// Whether its engine misses nothing of what was told before, or goes on without that.
    bool goesOn() const { return !resends_.isDue() && day_.goesOn(); }
    const std::string &clientsAddress() const { return clientsAddress_; }

private:
    bool mayRead();
    void passMessage(const std::string &message);
    void judge(const std::string &message);
    void give(const std::string &message, const Judged &judged);
    bool isOfSession(const Judged &it) const;
    bool isOfTraders(const Judged &it) const;
    bool isRefused(const std::string &message, const Judged &logon);
    void sayRefused(const std::string &why);
    bool isLongResend(const std::string &message, const Judged &request);
    void resendPiece();
    void passOver();
    void reject(const std::string &message, const Judged &refused, FIX::Message told, const std::string &why);
    void send(FIX::Message &message);
    std::string writing(const std::string &message);
    [[noreturn]] void endSession(const std::string &why, bool isEdges = true);

    const MemberSettings &member_;
    const Logons &logons_;
    Traders &traders_;
    Day &day_;
    Answers &answers_;
    FIX::Session *session_ = nullptr;
    Store *store_ = nullptr;

    std::unique_ptr<Connection> client_;
    std::string clientsAddress_;
    Gaps gaps_;
    Garbled garbled_;
    Resends resends_;
    Intake intake_;
    bool isHeldUp_ = false;
    bool isClientsTurn_ = false;  // It is read in front of the next piece that is sent again.
    long last_ = 0;               // The number of the last message of the client that could be read.
    bool isLoggingOut_ = false;   // That is a Logout,
    std::string farewell_;        // and its Text (58).
    long answer_ = 0;             // The number by which its Logon was answered.
    long wanted_ = 0;             // The number that its engine expects, where that says that ours is too low.
};

}
