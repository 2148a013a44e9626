#pragma once

#include <chrono>
#include <cstdint>
#include <string>

namespace edge {

/// Whether the disk of a folder has this room left, for who isn't root. It looks every 20 ms at most.
class Room {
public:
    Room(const std::string &folder, std::uint64_t least) : folder_(folder), least_(least) {}

    bool isThere();

private:
    using Clock = std::chrono::steady_clock;
    const std::string folder_;
    const std::uint64_t least_;
    Clock::time_point at_;
    bool isThere_ = true;
};

}
