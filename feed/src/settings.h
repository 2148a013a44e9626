#pragma once

// The settings of a feed, by a file (docs/FEED.md). They are read at the start; nothing of a message passes here.

#include <chrono>
#include <cstddef>
#include <stdexcept>
#include <string>
#include <vector>

#include "venue_place.h"

namespace feed {

/// A setting that is missing or wrong: its name, and what is wrong with it.
class BadSetting : public std::runtime_error {
public:
    BadSetting(const std::string &name, const std::string &why) : std::runtime_error(name + ": " + why) {}
};

/// Where the servers are, and who the feed is there.
struct Access {
    std::vector<std::string> servers;       // URLs.
    std::string user, password, authority;  // Empty: none.
};

/// What a stream may take at the servers.
struct Bounds {
    int replicas;
    long seconds, bytes;  // 0: no bound.
};

/// All settings, read and looked through.
struct Settings {
    edge::VenuePlace venue;
    int members;
    std::string name;
    Access access;
    Bounds bounds;
    std::size_t depth;
    std::chrono::milliseconds bookInterval, takeOver;
    int page;  // 0: none.
};

/// Reads the settings of a file. What is wrong in them is a BadSetting.
Settings readSettings(const std::string &path);

}
