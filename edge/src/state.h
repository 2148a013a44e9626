#pragma once

// What a member's record has in its rows: the next numbers of its sessions, and how far requests and reports have come
// at each venue.

#include <quickfix/FieldTypes.h>

namespace edge {

/// The last report of a venue that a member was told: of the type 8 by its ExecID, of the type 9 by the number of its
/// request. Both rise, so a report is new where it is above.
struct Told {
    long report = 0, reject = 0;

    bool operator==(const Told &other) const { return report == other.report && reject == other.reject; }
};

/// What is kept of one session of a member.
struct SessionState {
    long sender = 1, target = 1;  // The next numbers of the session, of the edge's messages and of the member's.
    FIX::UtcTimeStamp created;    // When these numbers began with 1.
    long heard = 1;               // All below this number was sent to an engine that was logged on.
    bool isSpared = false;        // Its orders stay, since its day ended, until the member has been logged on again.
    bool isDoubtful = false;  // The engine has sent nothing, since names were lost, but what it says to be sent again.

    /// Whether both have what each turn may change, and all else.
    bool hasNumbersOf(const SessionState &other) const {
        return sender == other.sender && target == other.target && heard == other.heard;
    }
    bool hasRestOf(const SessionState &other) const {
        return created == other.created && isSpared == other.isSpared && isDoubtful == other.isDoubtful;
    }
};

/// What is kept of a member's requests at one venue, and of what that venue has reported.
struct VenueState {
    Told told;
    long first = 0;        // The first number that has a name here; 0: not known yet. The venue may have some before.
    long last = 0;         // The greatest number of a request.
    long settled = 0;      // Each request up to this one was answered, or is noted as lost.
    long dropBefore = 0;   // Names of finished requests of before this second may go; 0: none.
    long ordersEnded = 0;  // The last end of a day by which what is Day was ended; 0: there was none.

    /// Whether both have what each turn may change, and all else.
    bool hasNumbersOf(const VenueState &other) const {
        return told.report == other.told.report && told.reject == other.told.reject && last == other.last &&
               settled == other.settled;
    }
    bool hasRestOf(const VenueState &other) const {
        return first == other.first && dropBefore == other.dropBefore && ordersEnded == other.ordersEnded;
    }
};

/// What is kept of a member in one row: its first session, the first venue that it has traded at, and what the member
/// has for all of them.
struct State : SessionState, VenueState {
    long doubtedAt = 0;  // Names may be missing of what the member sent before this second; 0: none.
};

}
