#include "delays.h"

#include <algorithm>

namespace edge {

namespace {
constexpr std::chrono::milliseconds FIRST(100), MOST(30000);
constexpr std::chrono::minutes FORGOTTEN(10);  // Behind the end of the last wait.
constexpr std::size_t ADDRESSES = 256;
}

bool Delays::isOver(std::uint32_t address, Clock::time_point now) const {
    const auto found = all_.find(address);
    return found == all_.end() || now >= found->second.until;
}

std::chrono::milliseconds Delays::failed(std::uint32_t address, Clock::time_point now) {
    forget(address, now);
    const auto found = all_.find(address);
    const auto pause = found == all_.end() ? FIRST : std::min(MOST, 2 * found->second.pause);
    all_[address] = Wait{pause, now + pause};
    return pause;
}

/// Drops what lies far back, and, where there is no room for this address, the one whose wait ends first.
void Delays::forget(std::uint32_t address, Clock::time_point now) {
    const auto endsFirst = [](const std::pair<const std::uint32_t, Wait> &one,
                              const std::pair<const std::uint32_t, Wait> &other) {
        return one.second.until < other.second.until;
    };
    for (auto it = all_.begin(); it != all_.end();)
        it = now - it->second.until > FORGOTTEN ? all_.erase(it) : std::next(it);
    if (all_.size() >= ADDRESSES && !all_.count(address))
        all_.erase(std::min_element(all_.begin(), all_.end(), endsFirst));
}

}
