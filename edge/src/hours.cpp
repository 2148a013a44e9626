#include "hours.h"

#include <algorithm>
#include <cctype>
#include <cstdio>

#include "seconds.h"
#include "setting_values.h"
#include "settings.h"

namespace edge {

namespace {

constexpr std::size_t LEAST_LETTERS = 2;
const char *const DAYS[] = {"sunday", "monday", "tuesday", "wednesday", "thursday", "friday", "saturday"};
const char *const OTHERS[] = {"LogonTime", "LogonDay", "LogoutTime", "LogoutDay"};

/// A time of the day in seconds.
long timeOf(const FIX::Dictionary &from, const char *name) {
    const std::string text = textOf(from, name);
    int hour, minute, second;
    char more;
    const bool isTime = text.size() == 8 && std::all_of(text.begin(), text.end(),
                                                        [](unsigned char it) { return std::isdigit(it) || it == ':'; });
    if (!isTime || std::sscanf(text.c_str(), "%2d:%2d:%2d%c", &hour, &minute, &second, &more) != 3 || hour > 23 ||
        minute > 59 || second > 59)
        throw BadSetting(name, "isn't HH:MM:SS: " + text);
    return (hour * 60 + minute) * 60 + second;
}

/// A day of the week by its name, or the first letters of that: 0 is Sunday.
long dayOf(const FIX::Dictionary &from, const char *name) {
    const std::string text = textOf(from, name);
    std::string letters = text;
    for (char &it : letters) it = static_cast<char>(std::tolower(static_cast<unsigned char>(it)));
    for (long day = 0; day < 7; day++)
        if (letters.size() >= LEAST_LETTERS && !std::string(DAYS[day]).compare(0, letters.size(), letters)) return day;
    throw BadSetting(name, "is no day, as Monday: " + text);
}

void refuseOthers(const FIX::Dictionary &from) {
    for (const char *name : OTHERS)
        if (from.has(name)) throw BadSetting(name, "isn't taken: members may log on from StartTime to EndTime");
    if (from.has("UseLocalTime") && textOf(from, "UseLocalTime") != "N")
        throw BadSetting("UseLocalTime", "isn't N: hours are in UTC, which no summer shifts");
}

}

Schedule hoursOf(const FIX::Dictionary &from) {
    refuseOthers(from);
    const long start = timeOf(from, "StartTime"), end = timeOf(from, "EndTime");
    if (!from.has("StartDay") && !from.has("EndDay")) return Schedule::daily(start, end);
    for (const char *name : {"StartDay", "EndDay"})
        if (!from.has(name)) throw BadSetting(name, "is missing beside the other of the two");
    const long first = dayOf(from, "StartDay"), last = dayOf(from, "EndDay");
    if (first == last && start < end)
        throw BadSetting("EndDay", "is StartDay, with an EndTime behind StartTime: engines take that for a whole week");
    return Schedule::weekly(first * Schedule::DAY + start, last * Schedule::DAY + end);
}

Schedule dayEndsOf(const FIX::Dictionary &from, const Schedule &hours) {
    if (!from.has("DayEndTime")) return hours;
    const long end = timeOf(from, "DayEndTime");
    return Schedule::daily(end, end);
}

std::string outsideOf(const Schedule &hours, long now) {
    return hours.isOpen(now) ? "" : "outside its hours until " + timeOf(hours.nextStart(now));
}

bool isOfHours(const std::string &name) {
    for (const char *it : {"STARTTIME", "ENDTIME", "STARTDAY", "ENDDAY", "USELOCALTIME", "DAYENDTIME"})
        if (name == it) return true;
    return false;
}

/// The library takes a start behind an end for a day over midnight, which holds all moments where the two are this
/// near. Two moments of it are in one day where the second isn't 24 hours behind the first.
void setEndlessHours(FIX::Dictionary &into) {
    into.setString("StartTime", "00:00:00.000000001");
    into.setString("EndTime", "00:00:00");
}

}
