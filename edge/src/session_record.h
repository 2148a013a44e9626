#pragma once

// What a member's record keeps of one of its sessions. store.h, teller.h, day.h and numbering.h change a session's
// numbers and messages by this.

#include <string>

#include "record.h"

namespace edge {

/// The part of a member's record that is the session's of one desk.
class SessionRecord {
public:
    SessionRecord(Record &record, int desk) : record_(record), desk_(desk) {}

    const SessionState &state() const { return record_.session(desk_); }

    /// The same to be changed, within this turn.
    SessionState &change() { return record_.changeSession(desk_); }

    /// Keeps a message of this number.
    void put(long number, const std::string &bytes) { record_.put(placeOf(desk_, number), bytes); }

    /// The place of a message of this number, in the table of messages.
    long place(long number) const { return placeOf(desk_, number); }

    /// Reads what was committed, of all sessions.
    void open() {
        if (desk_ == FIRST_DESK || !record_.database().isOpen()) record_.open();
    }

    /// Its numbers have begun anew.
    void numbersBegan() { record_.numbersBegan(desk_); }

    int desk() const { return desk_; }
    Record &ofMember() const { return record_; }

private:
    Record &record_;
    const int desk_;
};

}
