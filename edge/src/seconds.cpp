#include "seconds.h"

#include <cstdio>

namespace edge {

namespace {

/// The text of a second is made once.
const std::string &textOfSecond(std::time_t second) {
    thread_local std::time_t last = 0;
    thread_local std::string text = timeOf(last);
    if (second != last) text = timeOf(last = second);
    return text;
}

}

std::string timeOf(std::time_t second) {
    std::tm it;
    char text[24];
    ::gmtime_r(&second, &it);
    std::strftime(text, sizeof text, "%Y%m%d-%H:%M:%S", &it);
    return text;
}

std::string timeNow() {
    return textOfSecond(std::time(nullptr));
}

std::string momentOf(const timespec &moment) {
    std::string text = textOfSecond(moment.tv_sec);
    text += '.';
    for (long unit = 100000000; unit; unit /= 10) text += static_cast<char>('0' + moment.tv_nsec / unit % 10);
    return text;
}

timespec thisMoment() {
    timespec now;
    ::clock_gettime(CLOCK_REALTIME, &now);
    return now;
}

}
