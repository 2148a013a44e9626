#pragma once

// The way of the venue's reports from trader.h to a member: into the record, and to the client's connection. Each is
// what the library's session would make of a message with this body.

#include <quickfix/Responder.h>
#include <quickfix/Session.h>

#include <string>

#include "session_record.h"

namespace edge {

/// Tells reports as messages of a member's session. It writes them as the session does, and keeps, logs and sends them
/// in the same order, but makes no message of the library.
class Teller {
public:
    Teller(Record &record, int desk) : record_(record, desk) {}

    void attach(FIX::Session &session) { session_ = &session; }

    /// The client's connection, where there is one.
    void sendsTo(FIX::Responder *client) { client_ = client; }

    /// Keeps a message of this type and body under the session's next number, and sends it where the member is logged
    /// on.
    void tell(char type, const std::string &body);

private:
    std::string written(char type, const std::string &body) const;

    SessionRecord record_;
    FIX::Session *session_ = nullptr;
    FIX::Responder *client_ = nullptr;
};

}
