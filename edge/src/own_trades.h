#pragma once

// Answers which trades a member had (35=AD), by the reports that its session's store has since the day began.

#include <quickfix/Session.h>

#include <functional>
#include <map>
#include <memory>
#include <string>
#include <utility>
#include <vector>

#include "fields.h"
#include "session_record.h"
#include "settings.h"
#include "ticks.h"

namespace edge {

/// A member's own trades of its session's day. A request is answered by pieces, one request at a time, so that neither
/// the day's length nor a slow client holds anything up.
class OwnTrades {
public:
    OwnTrades(const MemberSettings &member, const std::map<std::string, Tick> &ticks, Record &record);

    void attach(FIX::Session &session) { session_ = &session; }

    /// Takes a request (AD), or answers why not.
    void asked(const FIX::Message &message);

    /// Tells the next trades, where the client has room. So many messages of the store were looked at.
    long tell(const std::function<bool()> &hasRoom);

    /// Whether a request is being answered.
    bool isBehind() const { return wanted_ != nullptr; }

    /// What was told may not have come: it is told to ask again.
    void beginAnew() {
        if (isBehind()) wanted_->isLost = true;
    }

    /// The client is gone.
    void end() { wanted_.reset(); }

private:
    /// What a request asks for, and how far it is answered. A field that is empty asks for all.
    struct Wanted {
        FIX::Message asked;
        std::string from, to;  // Days, as 20260721.
        long at = 0;           // The numbers up to this one were looked at.
        long end = 0;          // Numbers from here on have come since.
        long count = 0;
        std::string held;     // A trade that is told once it is known whether it is the last.
        bool isLost = false;  // What was told may not have come.

        bool takes(const Fields &stored) const;
    };

    std::string refusalOf(const FIX::Message &asked) const;
    void readDays(const FIX::Message &asked, Wanted &into) const;
    void refuse(const FIX::Message &asked, int result, const std::string &why) const;
    /// A message of the store, by its number.
    using Stored = std::pair<long, std::string>;

    std::vector<Stored> next(long &looked);
    void tellHeld(bool isLast);
    void send(FIX::Message &message) const;

    const MemberSettings &member_;
    const std::map<std::string, Tick> &ticks_;
    SessionRecord record_;
    FIX::Session *session_ = nullptr;
    std::unique_ptr<Wanted> wanted_;
    Statement messages_;
};

}
