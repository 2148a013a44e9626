#pragma once

// Where the days of a session end, and what is Day. The member's thread looks here in front of all that a turn tells,
// by schedule.h, and notes here what it has written to the member's engine, by heard.h.

#include <quickfix/Session.h>

#include <atomic>
#include <cstddef>
#include <string>
#include <vector>

#include "canonical.h"
#include "heard.h"
#include "owed.h"
#include "schedule.h"
#include "session_record.h"
#include "settings.h"
#include "store.h"
#include "venue_record.h"

namespace edge {

/// The days of a session of a member. At the end of its hours the numbers of a session begin anew, once, whether the
/// member is there or not. What it wasn't sent by then is told again under numbers of the new day, in front of what the
/// venue tells it next. Of a session of copies that may be any number, and is done in pieces. So is what a desk is told
/// again, where other desks would wait for more than a piece.
class Day {
public:
    /// Of the session of a desk.
    Day(const Schedule &hours, const Schedule &ofOrders, const MemberSettings &member, Record &record)
        : hours_(hours),
          ofOrders_(ofOrders),
          name_(member.deskName()),
          isOfCopies_(member.isOfCopies()),
          record_(record, member.desk),
          owed_(record_) {}

    /// Gives it the session and its store, each time that the store has been read.
    void attach(FIX::Session &session, Store &store);

    /// Whether the hours have ended since the numbers began.
    bool isOver();

    /// Whether the member may log on now.
    bool isOpen() const;

    /// The end of a day that what is Day is to end by now at a venue, as FIX writes it; nothing where each end was
    /// passed. Whoever asks ends it in this turn.
    std::string endOfOrders(VenueRecord &venue);

    /// Begins the next day. No client is there any more.
    void begin();

    /// The numbers go on with this one, which is above those of before. What the member's engine wasn't sent by then is
    /// told again behind it, since an engine may never ask for what stands below: how many reports that are, or 0 where
    /// it is done in pieces. No client is there.
    long goOnWith(long number);

    /// Whether something is to be told again in pieces. Nobody may log on until then.
    bool owes() const { return owed_.isThere(); }

    /// Tells the next piece of that.
    void tellOwed();

    /// The engine, which has gone, expects this number where its Logon was answered by a lower one: it has another day,
    /// or another store. It passes over all that it is told below. So the numbers go up, and what it wasn't sent is
    /// told again there: how many messages are looked at for that. Where it says so once more, and has heard nothing
    /// since, nothing is told again.
    long goUpTo(long number);

    /// What was written is committed. A day that has begun is said only now: one that couldn't be kept hasn't.
    void committed();

    /// What was written is lost.
    void drop() {
        begun_.clear();
        wentUp_.clear();
        toldAgain_.clear();
    }

    /// The member's engine has sent the next message of its session, which shows that it goes on: it isn't its Logon
    /// nor its Logout, and asks for nothing.
    void wentOn() { heard_.wentOn(); }

    /// The session has answered a message of the member's engine, in front of which this number was the next one.
    void answered(const Judged &message, long next);

    /// The session sends the engine again what is below this number, of what it has asked for.
    void sentAgain(long end) { heard_.asked(end); }

    /// Whether the engine is known to miss nothing of what was told before it logged on.
    bool hasAll() const { return heard_.hasAll(); }
    bool goesOn() const { return heard_.goesOn(); }

    /// So many bytes wait to be written to the engine.
    void written(std::size_t unsent);

    /// The engine's connection has ended.
    void left() { heard_.left(); }

    /// Notes in the record what the member has been sent.
    void keep();

    const Schedule &hours() const { return hours_; }

    /// When the numbers began with 1, for who looks from outside, of any thread.
    long began() const { return began_; }

private:
    bool isInPieces(long from, long end) const;
    std::vector<int> tellAgain(long from, long end);
    void dropEach(const std::vector<int> &numbers);
    void passStep();

    const Schedule hours_, ofOrders_;
    const std::string name_;
    const bool isOfCopies_;
    SessionRecord record_;
    FIX::Session *session_ = nullptr;
    Store *store_ = nullptr;
    Heard heard_;
    Owed owed_;
    std::string begun_, wentUp_, toldAgain_;  // What is said of a new day, of numbers and of pieces, once it is committed.
    long wentUpTo_ = 0;                       // Where the numbers last went up to by an engine's word.
    std::atomic<long> began_{0};
};

}
