#pragma once

#include <quickfix/Message.h>

#include <cstddef>
#include <map>
#include <string>

#include "canonical.h"
#include "fields.h"
#include "names.h"
#include "open_orders.h"
#include "orders.h"
#include "ticks.h"

namespace edge {

/// Writes what a member is told: reports of the venue in FIX 4.4, with its own names and prices, and refusals of the
/// edge.
class Reports {
public:
    /// Of a venue with this letter, which stands in front of what tells its reports and orders from those of others;
    /// empty: the member has one venue.
    Reports(const std::map<std::string, Tick> &ticks, NameBook &names, const std::string &lastCapacity,
            const std::string &letter = "")
        : ticks_(ticks), names_(names), lastCapacity_(lastCapacity), letter_(letter) {}

    /// The body of a report of the venue, of the type 8 or 9: its fields in the order of their tags.
    std::string of(const Fields &report) const;

    /// The edge's refusal of a request. What it says to have been asked for is the member's own text, but for the
    /// decimals of a price.
    FIX::Message refusal(const FIX::Message &asked, const Request &it, const OpenOrder *order, int reason,
                         const std::string &text);

    /// The edge's answer to a mass cancel, known by this number, by which so many cancels went to the venue.
    FIX::Message massCancelled(const FIX::Message &asked, long number, std::size_t count) const;

    /// The edge's word that a request came to nothing: of this name, whatever it asked for.
    FIX::Message lost(long number, const std::string &why) const;

    /// Whether a message that was stored is a report of the venue, and none of the edge's own.
    static bool isOfVenue(const Fields &stored);

private:
    class Body;

    bool isEnd(const Fields &report) const;
    bool isByOperator(const Fields &report) const;
    std::string executionOf(const Fields &report) const;
    std::string rejectOf(const Fields &report) const;
    void putFill(const Fields &report, Body &into) const;
    void putPrice(const Fields &report, int tag, Body &into) const;
    void putState(const Fields &report, Body &into) const;
    void putEnd(const Fields &report, Body &into) const;
    bool isOfNoDesk(const Fields &report) const;
    void putText(const Fields &report, Body &into) const;
    FIX::Message massRefusal(const FIX::Message &asked, int reason, const std::string &text) const;
    std::string priceOf(const std::string &symbol, long steps) const;
    void copyPrice(const FIX::Message &asked, FIX::Message &told, const std::string &symbol) const;
    std::string nextExecId();

    const std::map<std::string, Tick> &ticks_;
    NameBook &names_;
    const std::string lastCapacity_, letter_;
    long refusals_ = 0;
};

/// The session's Reject of a message that isn't canonical.
FIX::Message sessionReject(const Judged &refused);

/// The session's Reject of a message that has a number in this field that can't be followed.
FIX::Message rangeReject(const Judged &refused, int tag);

/// The answer to a message of a type that is FIX's, and that the edge has nothing to do with in a session that takes
/// requests, or in one that takes none.
FIX::Message typeReject(const Judged &message, bool takesRequests);

/// A word to an engine that isn't let in, which QuickFIX doesn't count: a Reject that was sent before, of the number 0.
/// A Logout is counted there, whatever its number is, so that the report which has the next number is never asked for.
std::string uncountedReject(const FIX::SessionID &session, const Judged &logon, const std::string &why);

/// Whether QuickFIX counts a message of a session whatever its number is: a Logout and a Reject, but the first message.
bool isCountedAnyway(const std::string &message);
bool isLogout(const std::string &message);

/// The same as a word that isn't counted, as the one above: of a message that is counted anyway, which is told behind
/// the engine's message of this number.
std::string uncounted(const std::string &message, long last);

/// Asks for all from this number on.
FIX::Message resendRequest(long first);

/// A Logout that says why.
FIX::Message sessionLogout(const std::string &why, bool isEdges = true);

}
