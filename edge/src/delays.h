#pragma once

#include <chrono>
#include <cstddef>
#include <cstdint>
#include <map>

namespace edge {

/// How long the door doesn't look at Logons from an address behind a wrong password: each further one doubles the wait.
/// It is of one member's port, and holds few addresses, whoever knocks.
class Delays {
public:
    using Clock = std::chrono::steady_clock;

    /// Whether a Logon from there is looked at.
    bool isOver(std::uint32_t address, Clock::time_point now) const;

    /// A password from there was wrong: how long none is looked at from now on.
    std::chrono::milliseconds failed(std::uint32_t address, Clock::time_point now);

    /// A password from there was right: what was before is forgotten.
    void succeeded(std::uint32_t address) { all_.erase(address); }

    std::size_t size() const { return all_.size(); }

private:
    struct Wait {
        std::chrono::milliseconds pause;
        Clock::time_point until;
    };

    void forget(std::uint32_t address, Clock::time_point now);

    std::map<std::uint32_t, Wait> all_;
};

}
