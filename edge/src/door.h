#pragma once

#include <quickfix/Acceptor.h>

#include <atomic>
#include <chrono>
#include <cstdint>
#include <list>
#include <string>

#include "delays.h"
#include "descriptor.h"
#include "framer.h"
#include "member_session.h"
#include "settings.h"

namespace edge {

/// The library's acceptor over sockets of the edge's own: it listens, reads the first message of each client, and hands
/// a client whose Logon that is over to the desk. It holds few clients, for some seconds each, and waits for none of
/// them.
class Door : public FIX::Acceptor {
public:
    Door(FIX::Application &application, FIX::MessageStoreFactory &stores, const Settings &settings,
         FIX::LogFactory &logs, MemberSession &desk);

private:
    using Clock = std::chrono::steady_clock;

    struct Guest {
        Descriptor socket;
        std::uint32_t address;
        std::string bytes, from;
        Clock::time_point since;
        std::size_t looked = 0;  // So many bytes of it were looked at, some of them again and again.
    };

    void onInitialize(const FIX::SessionSettings &settings) throw(FIX::RuntimeError) override;
    void onStart() override;
    bool onPoll(double) override { return false; }
    void onStop() override;

    void turn();
    bool admit();
    bool makeRoom(std::uint32_t address, const std::string &from);
    bool isDone(Guest &guest);
    bool greet(Guest &guest);
    bool isOfMember(const Judged &logon) const;
    void handOver(Guest &guest, const Judged &logon);
    bool isLookedAt(const Guest &guest, const Judged &logon);

    const Settings &settings_;
    MemberSession &desk_;
    const std::string who_;  // In front of its lines, where that isn't the member's name.
    Framer framer_;
    Descriptor listener_;
    std::list<Guest> guests_;
    Delays delays_;
    Clock::time_point admitAt_;
};

}
