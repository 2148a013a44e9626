#pragma once

// The hours of a session, as its settings have them. The edge alone goes by them: the library is given a day without an
// end, since it would empty a store of its own accord, and only while a client is there.

#include <quickfix/Dictionary.h>

#include "schedule.h"

namespace edge {

/// Reads the hours out of StartTime and EndTime, and of StartDay and EndDay where they are a week's. What is wrong in
/// them, or engines would take for other hours, is a BadSetting.
Schedule hoursOf(const FIX::Dictionary &from);

/// Reads out of DayEndTime when what is Day ends, each day; with the hours where that is left out.
Schedule dayEndsOf(const FIX::Dictionary &from, const Schedule &hours);

/// Of a moment outside of these hours until when that is so, in words; else nothing.
std::string outsideOf(const Schedule &hours, long now);

/// Whether this name, in capitals, is a setting of hours, which the library isn't given.
bool isOfHours(const std::string &name);

/// Gives the library a day that holds every moment, beside what a store says of its creation.
void setEndlessHours(FIX::Dictionary &into);

}
