#pragma once

#include <chrono>
#include <cstdint>
#include <set>
#include <string>

namespace edge {

/// Whether the files of a member's folders take no more bytes of their disks than this. It looks five times a second
/// at most.
class Quota {
public:
    Quota(const std::set<std::string> &folders, std::uint64_t most) : folders_(folders), most_(most) {}

    bool isKept();

private:
    using Clock = std::chrono::steady_clock;
    const std::set<std::string> folders_;
    const std::uint64_t most_;
    Clock::time_point at_;
    bool isKept_ = true;
};

}
