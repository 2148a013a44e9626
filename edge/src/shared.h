#pragma once

// What a member has once, at however many venues it trades. trader.h looks here in front of each request that it
// passes on to its venue.

#include <map>

#include "bucket.h"
#include "quota.h"
#include "record.h"
#include "room.h"
#include "settings.h"
#include "switches.h"

namespace edge {

/// What bounds a member's requests at all its venues together: what an operator has switched off, how many it may send
/// in a second, and the room on its disk.
class Shared {
public:
    Shared(const Settings &settings, Record &record);

    Switches &switches() { return switches_; }
    const Switches &switches() const { return switches_; }

    /// An engine is let on.
    void letsOn() { record_.letsOn(); }

    /// Whether the record is open.
    bool isThere() const { return record_.database().isOpen(); }

    /// The requests of a desk, and those of all desks.
    Bucket &rateOf(int desk) { return rates_.at(desk); }
    Bucket &rate() { return rate_; }

    /// Whether the disk and the bounds of the member's folders have room for new orders.
    bool hasRoom();

private:
    const MemberSettings &member_;
    Record &record_;
    Switches switches_;
    Bucket rate_;
    std::map<int, Bucket> rates_;  // By the numbers of the desks.
    Room room_;                    // For new orders.
    Quota quota_;
    bool hasRoom_ = true;
};

}
