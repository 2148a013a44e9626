// Reckons with the hours of a session, for tests: a line of standard input has the settings, as
// "06:00:00 22:00:00 - -" or "06:00:00 22:00:00 Monday Friday", and a moment in seconds behind the beginning of 1970.
// It answers each by the last end of the hours, whether they are open, and their next start, or by what is wrong with the
// settings.
#include <iostream>

#include "hours.h"
#include "settings.h"

int main() {
    std::ios::sync_with_stdio(false);
    std::string start, end, first, last;
    for (long now; std::cin >> start >> end >> first >> last >> now;) {
        FIX::Dictionary settings;
        settings.setString("StartTime", start);
        settings.setString("EndTime", end);
        if (first != "-") settings.setString("StartDay", first);
        if (last != "-") settings.setString("EndDay", last);
        try {
            const edge::Schedule hours = edge::hoursOf(settings);
            std::cout << hours.lastEnd(now) << " " << hours.isOpen(now) << " " << hours.isOver(now - 1, now)
                      << hours.isOver(now, now) << " " << hours.nextStart(now) << "\n";
        } catch (const edge::BadSetting &why) {
            std::cout << why.what() << "\n";
        }
    }
}
