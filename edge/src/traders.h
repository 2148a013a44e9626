#pragma once

// All venues of a member, as its sessions see them: which one a request goes to, and what is about all of them. A
// session's requests come here from member_session.cpp, and go on to the trader.h of one venue.

#include <cstddef>
#include <string>
#include <vector>

#include "shared.h"
#include "trader.h"

namespace edge {

/// Cancels of all orders by one command, at each venue.
struct Sweeps {
    std::vector<Sweep> each;  // By the places of the venues among the settings.

    /// So many orders they took.
    std::size_t count() const;
};

/// What a member has asked for and was told, at all venues.
struct CountsOfAll {
    long requests = 0, reports = 0, refusals = 0, openOrders = 0;
};

/// What stands between the sessions of a member and its venues: each request goes to the venue of its symbol. It is
/// used by the member's own thread.
class Traders {
public:
    explicit Traders(Shared &shared) : shared_(shared) {}

    /// Adds a venue, by the order of the settings. All are there before anything else is asked.
    void add(Trader &it) { all_.push_back(&it); }

    /// Lets each of them know what the others have.
    void join();

    /// Gives them the session of a desk and its days, whose record has been read. The first desk comes first.
    void attach(int desk, FIX::Session &session, const Day &day);

    /// The connection of a desk's client, where there is one: what the venues report goes there.
    void sendsTo(int desk, FIX::Responder *client);

    /// Takes a request of a desk. What goes wrong is told to the desk, or is the `fault`.
    void asked(int desk, const FIX::Message &message);

    /// The client of a desk isn't connected any longer, and one has logged on.
    void left(int desk);
    void isBack(int desk);

    /// A desk's orders stay until it has been logged on again: its day ends.
    void spare(int desk) { first().spare(desk); }

    /// Cancels all orders that rest or are under way, as sweeps which are over once the venues have answered them. One
    /// that isn't there does so once it is. Refused where one that is there takes no more.
    Sweeps cancelEach();
    bool isOver(const Sweeps &it) const;

    /// Those of the orders that may still rest, in words: how many, and some of their names.
    std::string restsOf(const Sweeps &it);

    /// Whether many cancels are under way, and whether requests of the member wait for a venue.
    bool isSweeping() const;
    bool isWaiting() const;

    /// What an operator has switched off.
    Switches &switches() { return shared_.switches(); }
    const Switches &switches() const { return shared_.switches(); }

    /// Whether requests go to a venue.
    bool isReady() const;

    /// Whether engines are let on: a venue is there, and the journal of none is being read for the first time.
    bool letsOn() const;

    /// Whether one of them lets no more be read of a desk, for seconds at most.
    bool isBusy(int desk) const;

    /// Whether the disk has room for new orders.
    bool hasRoom() { return shared_.hasRoom(); }

    /// So many messages were sent to the venues, and whether each takes more, or isn't waited for any longer.
    long sent() const;
    bool takesMore() const;

    /// The venue of a symbol, or the first one where none has the symbol.
    Trader &of(const std::string &symbol) const;

    /// The venue of this letter, or nothing.
    Trader *ofLetter(const std::string &letter) const;

    const std::vector<Trader *> &all() const { return all_; }
    Trader &first() const { return *all_.front(); }

    /// What keeps this member from being served, or nothing.
    std::string fault() const;
    void clearFault();

    // For who looks from outside, of any thread.
    CountsOfAll counts() const;
    Money openValue() const;
    long refusalsBy(Limit limit) const;

private:
    template <class Is>
    bool isAny(const Is &is) const;

    Shared &shared_;
    std::vector<Trader *> all_;
};

}
