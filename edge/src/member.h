#pragma once

// A member's thread, which does one turn after another. A turn reads what venue.h and conversation.h have, commits what
// came of that by record.h, and only then lets both write.

#include <atomic>
#include <chrono>
#include <deque>
#include <list>
#include <memory>
#include <mutex>
#include <string>
#include <thread>
#include <vector>

#include <poll.h>

#include "commands.h"
#include "copies.h"
#include "descriptor.h"
#include "operators.h"
#include "member_session.h"
#include "replay_turn.h"
#include "serving.h"
#include "settings.h"
#include "shared.h"
#include "shelf.h"
#include "traders.h"
#include "venue.h"

namespace edge {

/// A member: the sessions of its desks, its connections to its venues, and the one thread that does all for these. The
/// thread never waits for a client, for a venue or for a journal alone.
class Member : private Turning, private Hosting {
public:
    Member(const Settings &settings, Record &record);
    ~Member() override;

    /// The session of a desk, which is to get what the library has of it.
    MemberSession &session(int desk);

    /// All sessions have that, before it starts.
    void attached();

    void start();

    /// Ends the thread.
    void stop();

    /// Hands over a command of an operator. Of any thread.
    void ask(Asked asked);

    /// Carries a command out on this thread, and keeps what came of it; a question changes nothing. The member's own
    /// thread was never started.
    void actAlone(Asked asked);

    const MemberSettings &settings() const { return member_; }
    const std::list<MemberSession> &sessions() const { return sessions_; }
    CountsOfAll counts() const { return traders_.counts(); }
    const Switches &switches() const { return traders_.switches(); }
    Money openValue() const { return traders_.openValue(); }
    long refusalsBy(Limit limit) const { return traders_.refusalsBy(limit); }
    const std::list<Venue> &venues() const { return venues_; }
    const std::list<Copies> &copies() const { return copies_; }
    const Schedule &hours() const { return settings_.hours; }

    /// It serves where one of its venues does.
    Serving state() const;

private:
    using Clock = std::chrono::steady_clock;

    void wake() override;
    void keep() override;
    bool isStoreRead() const override { return isStoreRead_; }
    bool hasClient(int desk) override { return session(desk).isOn(); }
    void endOrdersOf(Trader &trader) override;
    bool isTellingAgain() const override;
    void serves() override;

    MemberSession &first() { return sessions_.front(); }
    bool isAnyOn() const;
    std::string storeFault() const;
    void run();
    void turn();
    void lookAtDay();
    void endOrders();
    void takeCommands();
    bool isAsked(Asked &it);
    std::chrono::milliseconds longestPause();
    void wait();
    void note(const std::vector<pollfd> &all);
    void endClients(const std::string &why);
    void setResting(bool rests);
    void drive();
    void driveCopies();
    void answer();
    void tellAgain();
    bool mayTellCopies() const;
    void tellCopies();
    std::chrono::milliseconds copiesPause();
    std::chrono::milliseconds answersPause(std::chrono::milliseconds most);
    void flush();
    void tick();
    void restAfter(const std::string &why);
    bool rests() const;
    bool maySettle() const;
    void readStore();

    const Settings &settings_;
    const MemberSettings &member_;
    Record &record_;
    Shared shared_;
    Traders traders_;
    Shelf books_;
    std::list<Venue> venues_;            // By their places among the settings.
    std::list<MemberSession> sessions_;  // By the numbers of their desks.
    Operators operators_;

    Descriptor bell_;
    std::mutex mutex_;  // Of what is handed over.
    std::deque<Asked> asked_;
    std::atomic<bool> isStopping_{false};
    std::atomic<Serving> state_{Serving::WaitsForVenue};  // Of a session of copies.

    std::string saidOfFault_;      // What is said isn't said again while it lasts.
    std::list<ReplayTurn> turns_;  // Those of copies.
    std::list<Copies> copies_;     // Of a session that is sent these, and has no link to a venue: of each venue.
    Clock::time_point connectAt_, tickAt_, restsUntil_;
    bool isStoreRead_ = true;  // Or it has to be read anew, before anything else is done.
    std::thread thread_;
};

}
