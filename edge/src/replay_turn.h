#pragma once

#include <chrono>
#include <string>

#include "descriptor.h"

namespace edge {

/// Lets one member of a common folder at a time read the journal, which takes a processor as long as that lasts. One
/// that has waited for half a minute reads all the same, so that a reading that never ends holds up no other for long.
class ReplayTurn {
public:
    /// In the common folder of all members, by a file of this name there; with no folder a member reads as it likes.
    /// Throws a std::runtime_error where the folder can't be used.
    explicit ReplayTurn(const std::string &folder, const std::string &name = "reading.lock");

    bool tryTake();

    /// Lets others read, or waits for the turn no longer.
    void giveBack();

private:
    using Clock = std::chrono::steady_clock;
    Descriptor lock_;
    bool isTaken_ = false, waits_ = false;
    Clock::time_point since_;
};

}
