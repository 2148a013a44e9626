#pragma once

// The reports of other members at one venue, for a session that is sent copies of them. It reads the journal by
// replay.h, asks the members' processes for names by name_asker.h, and tells by teller.h; member.cpp has it in its
// turns.

#include <poll.h>

#include <array>
#include <atomic>
#include <chrono>
#include <cstddef>
#include <deque>
#include <functional>
#include <list>
#include <memory>
#include <string>

#include "database.h"
#include "name_asker.h"
#include "quota.h"
#include "record.h"
#include "replay.h"
#include "replay_turn.h"
#include "reports.h"
#include "room.h"
#include "settings.h"
#include "teller.h"
#include "venue_record.h"

namespace edge {

/// The ExecutionReports that a venue has told some members, each told once to one session, those of each member in
/// their order. How far it is with each of them is kept with the messages themselves. A member whose process doesn't
/// tell its names, or tells them slowly, waits alone.
class Copies {
public:
    static constexpr std::size_t MOST_MEMBERS = 8;
    static constexpr std::size_t MOST_HELD = 4096;  // Reports of a member that wait to be told.
    using Polled = std::array<pollfd, MOST_MEMBERS + 1>;
    using HasRoom = std::function<bool()>;

    /// Of the venue at this place of the settings.
    Copies(const Settings &settings, std::size_t at, Record &record, Teller &teller, ReplayTurn &turn);

    /// The record has been read: it goes on behind what that has.
    void attach();

    /// Nothing is read until the record has been read anew.
    void drop();

    /// Begins to read the journal where it doesn't. Whether it reads.
    bool drive();

    /// Whether the journal was read to its end, and has what was told: it is followed from there on.
    bool isWhole() const { return isWhole_; }

    /// What poll looks for, and how long of this time it may be until something is due.
    Polled watched() const;
    std::chrono::milliseconds pause(std::chrono::milliseconds most, bool hasRoom) const;

    /// Reads what has come of the journal and of names. Throws a std::runtime_error where the journal lacks what was
    /// told.
    void read();

    /// Tells what can be told by now, as long as there is room.
    void tell(const HasRoom &hasRoom);

    /// Whether the disk has room for what is told, which is said where it hasn't. What is told again takes no more of
    /// the folders than it gives back.
    bool hasDisk(bool isAgain = false);

    // For who looks from outside, of any thread.
    long count() const { return count_; }
    long last() const { return last_; }
    bool isCutOff() const { return isCutOff_; }  // From the journal, which it doesn't read now.

    /// The same with the letter of the venue, where it has one.
    std::string lastWord() const { return place_.letter + std::to_string(last_); }

    /// Whose reports wait for their process, and how many, in words, or nothing.
    std::string waiting() const;

    /// The journal can't be used: why. It is read anew soon.
    void restAfter(const std::string &why) { lose(why); }

private:
    using Clock = std::chrono::steady_clock;

    /// A report that waits to be told.
    struct Held {
        long report, command;
        std::string text;  // With a bar behind each field.
    };

    /// A member whose reports are copied.
    struct Of {
        Of(const CopiedMember &it, const Settings &settings, const std::string &letter)
            : name(it.name),
              asker(it, letter),
              reports(settings.ticks, asker, settings.member.limits.lastCapacity, letter) {}

        const std::string name;
        NameAsker asker;
        Reports reports;
        std::deque<Held> held;
        long told = 0;      // The ExecID of the last report that was told,
        long kept = 0;      // and as the record has it.
        long command = 0;   // That of the last report that was held: what comes behind that is read from there on.
        long greatest = 0;  // The greatest number of its requests that the journal is known to have.
        bool hasSeenTold = true;       // The journal has that report.
        bool isBehind = false;         // More came than can be held, and is to be read again.
        bool isSlow = false;           // Its names come too slowly for others to wait for them.
        Clock::time_point fullAt;      // Since then as much is held as may be, and only names are missing,
        std::size_t toldSince = 0;     // and so many of that were told.
        std::atomic<long> waiting{0};  // So many wait for its process.
    };

    Of *find(const std::string &name);
    std::string keyOf(const std::string &member) const;
    void take(const char *line, std::size_t size);
    void takeOutput(const char *from, std::size_t size);
    bool isFull() const;
    void goBack();
    void lose(const std::string &why);
    void reads();
    void needTold(const Of &of) const;
    bool isNamed(Of &of) const;
    Of *next();
    void tell(Of &of);
    void judgePace(Of &of, bool lacksNames);
    void keep();

    const Settings &settings_;
    const VenuePlace &place_;
    Record &record_;
    const VenueRecord own_;
    Teller &teller_;
    ReplayTurn &turn_;
    std::list<Of> all_;
    std::unique_ptr<Replay> reader_;
    bool isWhole_ = false;  // The journal was read to its end, and is followed.
    long command_ = 0;      // Whose lines come, or came last.
    Clock::time_point readAt_, readSince_;
    std::chrono::milliseconds again_{0};  // Behind the last reading that failed it is read again: others wait for that.
    std::string saidOfReader_, saidOfDisk_;
    Room room_;
    Quota quota_;
    bool hasMore_ = false;  // That may be told at once where there is room.
    std::atomic<long> count_{0}, last_{0};
    std::atomic<bool> isCutOff_{false};
    Statement make_, read_, put_;
};

}
