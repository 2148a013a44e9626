#include "schedule.h"

#include <cstdio>

namespace edge {

namespace {
const char *const DAYS[] = {"Sunday", "Monday", "Tuesday", "Wednesday", "Thursday", "Friday", "Saturday"};
}

/// So many seconds ago was this time of the day or the week last: 0 to a period, which isn't reached.
long Schedule::since(long at, long now) const {
    const long over = (now - origin_ - at) % period_;
    return over < 0 ? over + period_ : over;
}

bool Schedule::isOpen(long now) const {
    const long length = start_ < end_ ? end_ - start_ : end_ - start_ + period_;
    return since(start_, now) < length;
}

std::string Schedule::wordsOf(long at) const {
    char text[32];
    const long second = at % DAY;
    std::snprintf(text, sizeof text, "%02ld:%02ld:%02ld", second / 3600, second / 60 % 60, second % 60);
    return period_ == DAY ? text : std::string(DAYS[at / DAY]) + " " + text;
}

std::string Schedule::words() const {
    return wordsOf(start_) + " to " + wordsOf(end_) + " UTC";
}

}
