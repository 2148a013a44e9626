#pragma once

// Moments as FIX writes them. Each message that is sent and each line of a log has one.

#include <ctime>
#include <string>

namespace edge {

/// A second as FIX writes it, in UTC.
std::string timeOf(std::time_t second);

/// This second.
std::string timeNow();

/// A moment, with nine digits behind the second.
std::string momentOf(const timespec &moment);

/// This moment.
timespec thisMoment();

}
