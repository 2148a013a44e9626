#pragma once

// The numbers of a session of a member, as an operator looks at them and sets them: operators.h calls here, on the member's
// own thread, and what changes is committed with the turn.

#include <quickfix/Session.h>

#include <string>

#include "conversation.h"
#include "day.h"
#include "session_record.h"
#include "settings.h"

namespace edge {

/// The next numbers of a session, of the edge's messages (out) and of those of the member's engine (in). They are set
/// while no engine is there. The edge's own one never goes down: what stands in the store above it would be written
/// over, and its engine would ask for none of it.
class Numbering {
public:
    Numbering(const MemberSettings &member, Record &record, const Conversation &conversation, Day &day)
        : member_(member), record_(record, member.desk), conversation_(conversation), day_(day) {}

    /// Gives it the session.
    void attach(FIX::Session &session) { session_ = &session; }

    /// Both numbers, and whose session has them.
    std::string words() const;

    /// Sets both: what has changed, in words. Numbers that can't be are a Refused, and change nothing.
    std::string set(long out, long in);

private:
    void need(long out, long in) const;

    const MemberSettings &member_;
    const SessionRecord record_;
    const Conversation &conversation_;
    Day &day_;
    FIX::Session *session_ = nullptr;
};

}
