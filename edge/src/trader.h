#pragma once

#include <quickfix/Message.h>
#include <quickfix/Session.h>

#include <atomic>
#include <chrono>
#include <cstddef>
#include <deque>
#include <functional>
#include <map>
#include <memory>
#include <string>
#include <vector>

#include "bucket.h"
#include "cancels.h"
#include "elsewhere.h"
#include "exposure.h"
#include "limiter.h"
#include "market.h"
#include "names.h"
#include "open_orders.h"
#include "orders.h"
#include "seat.h"
#include "settings.h"
#include "shared.h"
#include "switches.h"
#include "under_way.h"
#include "venue_link.h"
#include "venue_place.h"

namespace edge {

/// Counts for who looks from outside, of any thread.
struct Counts {
    std::atomic<long> requests{0}, reports{0}, refusals{0}, openOrders{0}, lastReport{0};
};

/// What stands between the sessions of a member's desks and its connection to one venue: requests go one way, reports
/// the other, each once, to the desk that sent the request. It is used by the member's own thread. traders.h has one
/// for each venue of the member.
class Trader {
public:
    Trader(const Settings &settings, const VenuePlace &venue, Shared &shared, Record &record, Names &names,
           VenueLink &link);

    /// Gives it the session of a desk and its days, whose record has been read. The first desk comes first.
    void attach(int desk, FIX::Session &session, const Day &day);

    /// The connection of a desk's client, where there is one: what the venue reports goes there.
    void sendsTo(int desk, FIX::Responder *client) { seatOf(desk).teller.sendsTo(client); }

    /// Takes a request of a desk. What goes wrong is told to the desk, or is the `fault`.
    void asked(int desk, const FIX::Message &message);

    /// The client of a desk isn't connected any longer.
    void left(int desk);

    /// A desk's orders stay until it has been logged on again: its day ends.
    void spare(int desk) { seatOf(desk).record.change().isSpared = true; }
    void isBack(int desk);

    /// What it asks of the member's other venues, which is to be there before it is used.
    Elsewhere &elsewhere() { return elsewhere_; }

    /// The value of what a desk has open here, or all desks where none is named, as far as limits at other venues go,
    /// and how many orders that are: what may have been open before counts until the venue has said what it has taken.
    /// Whether that has been known.
    Money openValue(int desk) const;
    std::size_t openOrders(int desk) const;
    bool isOpenKnown() const { return isSure() || wasSure_; }

    /// The same cancels as at another venue: how many orders are cancelled now. Where the venue isn't there they are
    /// kept until it is, which the words say.
    std::size_t sweepAlong(const Sweep &it, std::string &words);

    /// Whether a desk's mass cancel is taken here now: the venue is there, and waits for no room and no numbers.
    bool takesMassCancel(int desk) const;

    /// Keeps a cancel of all orders of now, for when the venue is there.
    Sweep owe();

    /// Cancels what is Day and went to the venue before this end of a day. The venue is there, and has told what rests.
    void endDay(const std::string &end);

    /// Cancels all orders that rest or are under way, as a sweep which is over once the venue has answered that.
    /// Refused where the venue takes no more.
    Sweep cancelEach();

    /// Refused where the venue has no numbers for the cancels of all orders.
    void needNumbers() const;
    bool isOver(const Sweep &it) const { return isReady_ && cancels_.isOver(it.known); }

    /// Whether many cancels are under way: what can wait waits for these.
    bool isSweeping() const { return (isReady_ || venue_.letter.empty()) && cancels_.isSweeping(); }

    /// Whether requests of the member wait for the venue.
    bool isWaiting() const { return isReady_ && underWay_.sizeOf(ALL_DESKS); }

    /// Those of its orders that may still rest, in words: how many, and some of their names.
    std::string restsOf(const Sweep &it);

    /// The journal is to be read, from its beginning on.
    void beginRecovery();
    void recovered(const char *line, std::size_t size);

    /// What the venue tells all members, line by line, where the limits of this one need that.
    bool needsMarket() const;
    void seen(const char *line, std::size_t size) { market_.take(line, size); }

    /// The journal has been read. A desk may have a client meanwhile.
    void endRecovery(const std::function<bool(int)> &hasClient);

    /// A message of the venue. It waits until what the journal tells has been taken in, which stands before it. So does
    /// one to a desk that is being told again what it wasn't sent, and all that comes behind that: how far the desks
    /// were told is one number for all of them.
    void heard(const Fields &message);

    /// Takes in what doesn't have to wait any more.
    void takeHeld();

    /// The connection to the venue has ended.
    void venueLost();

    /// Drops some names that nobody needs any longer.
    void tidy();

    /// Whether requests go to the venue.
    bool isReady() const { return isReady_; }

    /// Whether the venue's journal is being read, for the first time since the record was opened, or is about to be,
    /// unless that has failed before.
    bool isReadFirst() const;

    /// The journal can't be used, or the venue has gone before that was read.
    void fails() { hasFailed_ = true; }
    bool isRecovering() const { return isRecovering_; }

    /// Whether the venue has said what it has taken of before.
    bool knowsAll() const { return names_.state().settled >= doubtTo_; }

    /// Whether as many requests as may be wait for the venue, which answers, or an end of a day does: no more are read
    /// until it has.
    bool isBusy(int desk) const;

    /// Whether the venue takes what is sent to it, so that more may be read. One of several that has taken too little
    /// for seconds holds up its own requests alone, which are refused then.
    bool takesMore() const { return link_.unsent() < MOST_UNSENT || isStuck(); }

    /// Looks how much waits to be written to the venue.
    void noteUnsent();

    /// Whether as much of the venue waits as may be held: it isn't read now.
    bool holdsTooMuch() const;

    /// The names of requests from this number on, as told_names.h tells them to who copies reports.
    std::string namesFrom(long from);

    /// What writes the reports of the first session, for copies.h.
    Teller &teller() { return seatOf(FIRST_DESK).teller; }

    /// The names of its requests, and the venue that they go to.
    Names &names() const { return names_; }
    const VenuePlace &venue() const { return venue_; }
    const VenueLink &link() const { return link_; }

    /// What keeps this member from being served, or nothing.
    const std::string &fault() const { return fault_; }
    void clearFault() { fault_.clear(); }

    /// Its orders that rest, the last that have ended, and what the venue hasn't answered.
    const OpenOrders &open() const { return open_; }
    const std::map<long, Request> &underWay() const { return underWay_.all(); }

    const Counts &counts() const { return counts_; }
    const Exposure &exposure() const { return exposure_; }
    const Limiter &limiter(int desk) const { return seatOf(desk).limiter; }

    /// So many requests a limit has refused, of all desks. Of any thread.
    long refusalsBy(Limit limit) const;

private:
    static constexpr std::size_t MOST_UNSENT = 1 << 20;  // Bytes to the venue, behind which no more is read.

    bool isStuck() const;
    Seat &seatOf(int desk) const { return *seats_.at(desk); }
    bool isSure() const { return isReady_ && knowsAll(); }
    bool hasRoom() { return shared_.hasRoom(); }
    bool isKnown(const std::string &name, int desk);
    void pass(Seat &seat, const FIX::Message &message);
    void needSure(const Seat &seat, const FIX::Message &message) const;
    long originalOf(const Request &it) const;
    void needRate(const Request &it);
    void needRoom(const Request &it);
    void needFewUnderWay(const Request &it) const;
    void needFewOrders(const Request &it) const;
    static void needFewer(std::size_t count, int most, const std::string &who);
    void needAllowed(const Request &it) const;
    void needWithinLimits(const Request &it, long original);
    void cancelCrossed(const Request &it);
    bool hasManyUnderWay(const Seat &seat) const;
    bool isInDoubt(const Seat &seat) const;
    bool isUnknownElsewhere(const Seat &seat) const;
    void noteOpen();
    void massCancel(Seat &seat, const FIX::Message &message, const Request &it);
    std::size_t sweep(Sweep &it);
    void carryOut(Sweep &it);
    std::map<long, OpenOrder> orders() const;
    std::map<long, OpenOrder> dayOrders();
    void sweepOwed();
    void passWhereAllowed(const Request &it);
    void passOn(const Request &it, long original);
    static bool isSentAgain(const FIX::Message &message);
    void refuse(Seat &seat, const FIX::Message &message, const Request &it, const Refused &why);
    bool hasToWait(const Fields &message);
    void take(const Fields &report);
    void needOwn(const Fields &report) const;
    bool isOfAnother(const Fields &report) const;
    void lacks(long number);
    bool isBehindTold(const Fields &report);
    void needTold() const;
    void tell(const Fields &report, Seat &seat);
    void tellLost(long upTo);
    void tellLost(long number, const std::string &why);
    void rejected(const Fields &reject);
    void send(const Seat &seat, FIX::Message &message);
    void cancelAll(Seat &seat);
    void probe();
    bool hasNumber() const { return names_.last() < Names::GREATEST; }
    bool hasNumbersFor(std::size_t count) const;
    void needNumbersFor(std::size_t count) const;

    const MemberSettings &member_;
    const VenuePlace &venue_;
    Shared &shared_;
    Record &record_;
    Names &names_;
    VenueLink &link_;
    OpenOrders open_;
    Cancels cancels_;
    Switches &switches_;
    Elsewhere elsewhere_;
    Exposure exposure_;  // Of all desks.
    Market market_;
    std::map<int, std::unique_ptr<Seat>> seats_;  // By the numbers of the desks.
    UnderWay underWay_;
    Bucket::Clock::time_point heardAt_;  // When the venue answered last, or had what is waited for.
    Bucket::Clock::time_point fullSince_ = Bucket::Clock::time_point::max();  // So long too much waits for the venue.
    Bucket &rate_;                                                            // Of all desks together, at all venues.
    std::deque<std::string> held_;  // Messages of the venue that wait, in their order.
    std::size_t heldBytes_ = 0;
    bool hasSeenTold_ = false;  // The journal has the last report that the store has.
    bool isRecovering_ = false, isReady_ = false;
    bool hasFailed_ = false;  // The last reading of the journal.
    Bucket::Clock::time_point readSince_ =
        Bucket::Clock::time_point::max();  // The first time since the record was opened.
    std::string fault_;
    std::map<int, Money> valueBefore_;         // What desks had open when it was last known, and 0 what all had,
    std::map<int, std::size_t> ordersBefore_;  // and how many orders.
    bool wasSure_ = false;                     // It has been known.
    long lacking_ = 0;                         // So many requests that the journal has are none of the names.
    long doubtTo_ = 0;  // Until this one is answered nobody knows what the venue has taken of before; 0: all is known.
    Counts counts_;
};

}
