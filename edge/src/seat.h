#pragma once

// What a desk of a member has of its own on the way to a venue and back. trader.h has one for each session of its
// member.

#include <quickfix/Session.h>

#include <map>
#include <string>

#include "bucket.h"
#include "day.h"
#include "exposure.h"
#include "limiter.h"
#include "market.h"
#include "names.h"
#include "orders.h"
#include "reports.h"
#include "session_record.h"
#include "settings.h"
#include "teller.h"

namespace edge {

/// A desk's session and its limits, at one venue.
struct Seat {
    Seat(const MemberSettings &settings, const std::map<std::string, Tick> &ticks, Record &record, Names &names,
         const Exposure &exposure, const Market &market, const Elsewhere &elsewhere, const std::string &letter,
         Bucket &rate)
        : settings(settings),
          record(record, settings.desk),
          orders(ticks, settings.limits.dropped),
          reports(ticks, names, settings.limits.lastCapacity, letter),
          teller(record, settings.desk),
          limiter(settings.limits.orders, ticks, exposure, market, elsewhere),
          rate(rate) {}

    /// Whether it is being told again what it wasn't sent: nothing else is told to it meanwhile.
    bool owes() const { return day && day->owes(); }

    const MemberSettings &settings;
    SessionRecord record;
    FIX::Session *session = nullptr;
    const Day *day = nullptr;
    Orders orders;
    Reports reports;
    Teller teller;
    Limiter limiter;
    Bucket &rate;                      // At all venues.
    Bucket::Clock::time_point fullAt;  // When as many of its requests as may be were under way last.
    bool isCancelDue = false;          // Its client has gone, and its orders are to go with it.
    bool wasLeft = false;              // So it was when the record was opened.
    long cancelledTo = 0;              // The number of the last request when its orders were cancelled.
};

}
