#pragma once

// One venue of a member, on the member's thread: the connection to it, its journal, and its market. member.cpp has a
// part of each turn done here, and trader.h takes what has come.

#include <poll.h>

#include <atomic>
#include <chrono>
#include <cstddef>
#include <memory>
#include <string>
#include <vector>

#include "books.h"
#include "names.h"
#include "replay.h"
#include "replay_turn.h"
#include "serving.h"
#include "settings.h"
#include "trader.h"
#include "venue_link.h"

namespace edge {

/// What a venue asks of the member's thread.
class Hosting {
public:
    virtual ~Hosting() = default;

    /// Whether a desk has a client.
    virtual bool hasClient(int desk) = 0;

    /// The venue has told what rests: what is Day ends there where a day has ended.
    virtual void endOrdersOf(Trader &trader) = 0;

    /// The venue serves, which it didn't.
    virtual void serves() = 0;

    /// Whether a desk is being told again what it wasn't sent: what the journal tells comes behind that.
    virtual bool isTellingAgain() const = 0;
};

/// A member's side of one venue. No call of it waits. What keeps the venue from being used is a VenueFault.
class Venue {
public:
    static constexpr std::size_t WATCHED = 3;  // Descriptors that poll looks at.

    /// The venue at this place of the settings.
    Venue(const Settings &settings, std::size_t at, Record &record, Shared &shared, bool isMarketOpen, Hosting &host);

    Trader &trader() { return trader_; }
    const Trader &trader() const { return trader_; }
    Books &books() { return books_; }
    const VenuePlace &place() const { return place_; }

    /// Begins what is due: to connect, to read the journal, to follow the market.
    void drive();

    /// What poll is to look for, and what has come.
    void watch(std::vector<pollfd> &all) const;
    void came(const pollfd *those);

    /// Whether what reads the journal is looked at again soon, and whether something else is due by itself.
    bool isReadingOver() const { return replay_ && replay_->isOver(); }
    bool isDriven() const { return link_.state() == VenueLink::State::Down || wantsTurn(); }

    /// Reads what has come: all that the venue has told, before more is read of the member.
    void read();

    /// Takes what has come of the last command for all of it where that is so, and notes whether the books are those of
    /// the market now.
    void lookAtMarket();
    void noteMarket() { books_.isThere(trader_.isReady() && isMarketThere()); }

    /// Looks at what takes long, and drops what nobody needs any longer.
    void tick();

    /// Lets all that was sent so far be written, and writes what it can of that.
    void release() { link_.release(); }
    void flush();

    /// The process ends: what was released is written.
    void end();

    /// The connection ends, and is made anew behind a while: the member isn't served, or this venue alone isn't, and
    /// why.
    void rest();
    void restAfter(const std::string &why);

    /// Others may read their journals.
    void turnBack();

    // Of any thread.
    Serving state() const { return state_; }

private:
    using Clock = std::chrono::steady_clock;

    void readLink();
    void readJournal();
    void readMarket();
    void followMarket();
    void loseMarket(const std::string &why);
    void seen(const char *line, std::size_t size);
    bool needsMarket() const { return trader_.needsMarket() || isMarketOpen_; }
    bool isCommandWhole() const;
    bool wantsTurn() const;
    bool isMarketThere();
    void drop(std::chrono::milliseconds again);
    void dropLink(const std::string &why);
    void sayOfVenue(const std::string &why);
    void tell(const std::string &what) const;
    std::string named(const std::string &what) const;

    const Settings &settings_;
    const MemberSettings &member_;
    const VenuePlace &place_;
    const bool isMarketOpen_;  // To one of the desks.
    Hosting &host_;
    Names names_;
    ReplayTurn turn_;
    VenueLink link_;
    Trader trader_;
    Books books_;
    const std::unique_ptr<ReplayTurn> marketsTurn_;  // Of what tells the market: by that nobody is served later.

    std::atomic<Serving> state_{Serving::WaitsForVenue};
    std::string saidOfVenue_, saidOfFault_;      // What is said isn't said again while it lasts.
    std::unique_ptr<Replay> replay_, follower_;  // Of what the journal has, and of what comes into it.
    bool wantsReplay_ = false;
    Clock::time_point connectAt_, followAt_;
    Clock::time_point settleAt_;  // Then nothing more comes of the last command that all were told.
    Clock::time_point lateAt_;    // Then the books are too far behind a report,
    long lateFor_ = 0;            // which is this one.
    bool hasLink_ = false, hasJournal_ = false, hasMarket_ = false;  // Something to be read.
    bool isKeptWaiting_ = false;                                     // By another client at the venue's port.
    std::chrono::milliseconds again_{0};                             // Behind its last fault it is tried again.
    bool isLoggingOn_ = false;                                       // The venue has taken the connection.
};

}
