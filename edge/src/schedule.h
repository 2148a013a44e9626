#pragma once

// The hours of a session, reckoned without a clock: when its day ended last, and whether its member may log on. By day.h
// that is asked before a turn tells anything, so that each report has the numbers of the day that it is told in.

#include <string>

namespace edge {

/// From a start to an end, each day or each week, in UTC. Numbers begin anew at each end. What comes behind an end
/// belongs to the next day or week already, though nobody may log on before its start. Where start and end are one time
/// there is no pause.
class Schedule {
public:
    static constexpr long DAY = 24 * 60 * 60, WEEK = 7 * DAY;

    /// One of all day, which ends at 00:00:00.
    Schedule() = default;

    /// Each day, in seconds behind 00:00:00.
    static Schedule daily(long start, long end) { return Schedule(DAY, 0, start, end); }

    /// Each week, in seconds behind the 00:00:00 of a Sunday.
    static Schedule weekly(long start, long end) { return Schedule(WEEK, SUNDAY, start, end); }

    /// The last end that isn't behind this moment. All moments are in seconds behind the beginning of 1970.
    long lastEnd(long now) const { return now - since(end_, now); }

    /// Whether a member may be logged on at this moment.
    bool isOpen(long now) const;

    /// The next start behind this moment.
    long nextStart(long now) const { return now - since(start_, now) + period_; }

    /// Whether a session whose numbers began at a moment has to begin anew now. A clock that was put back doesn't end a
    /// day twice.
    bool isOver(long began, long now) const { return began < lastEnd(now); }

    /// The hours in words, as "06:00:00 to 22:00:00 UTC".
    std::string words() const;

private:
    static constexpr long SUNDAY = 3 * DAY;  // The first one: 1970 began with a Thursday.

    Schedule(long period, long origin, long start, long end)
        : period_(period), origin_(origin), start_(start), end_(end) {}

    long since(long at, long now) const;
    std::string wordsOf(long at) const;

    long period_ = DAY, origin_ = 0, start_ = 0, end_ = 0;
};

}
