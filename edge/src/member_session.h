#pragma once

// The session of one desk of a member. member.h has one for each desk, and lets each do its part of a turn.

#include <quickfix/Session.h>

#include <poll.h>

#include <atomic>
#include <chrono>
#include <cstddef>
#include <mutex>
#include <string>
#include <vector>

#include "answers.h"
#include "conversation.h"
#include "day.h"
#include "descriptor.h"
#include "log.h"
#include "logons.h"
#include "numbering.h"
#include "settings.h"
#include "shelf.h"
#include "store.h"
#include "traders.h"

namespace edge {

/// What a session asks of the member's thread.
class Turning {
public:
    virtual ~Turning() = default;

    /// Wakes the thread, so that it looks what is to be done. Of any thread.
    virtual void wake() = 0;

    /// Commits what the turn has written so far, of all sessions, and lets go what rests on that.
    virtual void keep() = 0;

    /// Whether the stores are those of the record, or have to be read anew.
    virtual bool isStoreRead() const = 0;
};

/// The session of a desk with all that is its own: its client, its days, its numbers, and what it asks of the edge
/// itself. The member's thread alone uses it, but for what is said to be of any thread.
class MemberSession {
public:
    MemberSession(const Settings &settings, Record &record, Traders &traders, const Shelf &books, Turning &thread);

    /// Gives it its session, and the store and log of that, before the thread starts.
    void attach(FIX::Session &session, Store &store, Log &log);

    /// Hands over a client's connection, whose first message is this desk's Logon, or lets it go where many wait. Of
    /// any thread.
    void hand(Descriptor socket, const std::string &bytes, const std::string &from);

    /// Whether a user of this name and password is this desk. Of any thread.
    bool knows(const std::string &username, const std::string &password) const {
        return logons_.knows(username, password);
    }

    // What the library calls, on the member's thread.
    void asked(const FIX::Message &message);
    void loggedOn();
    void loggedOut() { isLoggedOn_ = false; }

    /// The record has been opened: the numbers are those that it has.
    void readStore();

    /// Ends the day where its hours have ended since the last look: before this turn tells anything. Its orders stay
    /// but for what is Day, since it was the day that ended, and no connection that was lost.
    void lookAtDay();

    /// Whether something is to be told again in pieces, as of a session of copies, and the next piece of that.
    bool owes() const { return day_.owes(); }
    void tellOwed() { day_.tellOwed(); }

    /// The end of a day that what is Day is to end by now at a venue, as FIX writes it, or nothing.
    std::string endOfOrders(VenueRecord &venue) { return day_.endOfOrders(venue); }

    /// What poll is to look for at its client, how long of this time that may be, and what has come.
    pollfd watched() { return conversation_.watched(); }
    std::chrono::milliseconds pause(std::chrono::milliseconds most) { return conversation_.pause(most); }
    void came(const pollfd &it) { hasClient_ = it.revents & (POLLIN | POLLHUP | POLLERR); }

    /// Its part of a turn: reads its client, and takes in one that was handed over.
    void read();

    /// Lets the session look at the clock, for heartbeats.
    void tick();

    /// Answers what its client has asked of the edge, where the books are those of now.
    void answer(bool isMarketThere);

    /// How long of this time it may be until the client is to be told something.
    std::chrono::milliseconds answersPause(std::chrono::milliseconds most, bool isSettled, bool isMarketThere);

    /// Whether the client is told what the edge itself knows: that is true now, and the client misses nothing.
    bool mayAnswer();

    /// Whether a client that takes little has taken what was told: nothing else waits for it.
    bool hasRoomForAnswers() const;

    /// Whether the numbers of the session have room for more than reports.
    bool hasNumbers() const;

    /// Why nothing may be committed now, or nothing.
    const std::string &fault() const { return fault_; }
    const std::string &storeFault() const { return store_->fault(); }

    // In front of a commit, behind it, and where it is lost.
    void keepDay() { day_.keep(); }
    void committed() {
        day_.committed();
        isOwed_ = day_.owes();
    }
    void release() { conversation_.release(); }
    void drop();

    /// Writes to its client what there is, and ends what has to end.
    void flush() { endWhere(conversation_.flush()); }

    /// Ends the client's connection; the session learns that it is gone.
    void endClient(const std::string &why);

    bool isOn() const { return conversation_.isOn(); }
    int desk() const { return member_.desk; }
    const MemberSettings &settings() const { return member_; }
    Logons &logons() { return logons_; }
    Numbering &numbering() { return numbering_; }
    Log &log() { return *log_; }

    // For who looks from outside, of any thread.
    bool isLoggedOn() const { return isLoggedOn_; }
    bool isOwed() const { return isOwed_; }
    long dayBegan() const { return day_.began(); }
    std::size_t unsent() const { return unsent_; }

private:
    struct Handed {
        Descriptor socket;
        std::string bytes, from;
    };

    void takeHanded();
    void admit(Handed &it);
    void endWhere(const std::string &why);

    const MemberSettings &member_;
    Traders &traders_;
    Turning &thread_;
    Day day_;
    Answers answers_;
    Logons logons_;
    Conversation conversation_;
    Numbering numbering_;
    FIX::Session *session_ = nullptr;
    Store *store_ = nullptr;
    Log *log_ = nullptr;

    std::mutex mutex_;  // Of what is handed over.
    std::vector<Handed> handed_;
    std::atomic<bool> isLoggedOn_{false}, isOwed_{false};
    std::atomic<std::size_t> unsent_{0};
    std::string fault_;       // Of an answer that couldn't be told.
    bool hasClient_ = false;  // Something to be read of it.
};

}
