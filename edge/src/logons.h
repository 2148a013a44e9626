#pragma once

// Whether a Logon is that of the member, and may be taken. The door asks that of a stranger's first message, and
// conversation.h of each Logon that it would show the session.

#include <string>

#include "canonical.h"
#include "settings.h"
#include "traders.h"

namespace edge {

/// What is wrong with a user's name and password that aren't the member's.
std::string faultOf(const std::string &username, const std::string &password);

/// What a Logon has to have to be taken as the member's. The hours of the session are another thing, of day.h.
class Logons {
public:
    Logons(const MemberSettings &member, const Traders &traders) : member_(member), traders_(traders) {}

    /// Whether a user of this name and password is this member. Of any thread.
    bool knows(const std::string &username, const std::string &password) const;

    /// Why a Logon is refused, or nothing. Where HeartBtInt is missing the session says so.
    std::string refusalOf(const Judged &logon) const;

    /// Whether the member has rested for a fault, and hasn't been served since.
    void rests(bool isFaulty) { isFaulty_ = isFaulty; }

    /// A session of copies is served: its journal has what it was told.
    void copiesAreThere() { areCopiesThere_ = true; }

private:
    const MemberSettings &member_;
    const Traders &traders_;
    bool isFaulty_ = false, areCopiesThere_ = false;
};

}
