#pragma once

#include <algorithm>
#include <chrono>

namespace edge {

/// So much in each second, and at once no more than a second's worth: of requests, of what is read, of lines. It may be
/// overdrawn by what is taken last, and has room again once that is made up for.
class Bucket {
public:
    using Clock = std::chrono::steady_clock;

    /// 0: there is always room.
    explicit Bucket(double most) : most_(most), left_(most) {}

    /// Whether this much is left.
    bool hasRoom(double count = 1) {
        const auto now = Clock::now();
        left_ = std::min(most_, left_ + most_ * std::chrono::duration<double>(now - at_).count());
        at_ = now;
        return !most_ || left_ >= count;
    }

    void take(double count = 1) { left_ -= count; }

    /// How long it takes until this much is left again, with what was left at the last look.
    std::chrono::milliseconds pause(double count = 1) const {
        if (!most_ || left_ >= count) return std::chrono::milliseconds(0);
        return std::chrono::milliseconds(1 + static_cast<long>(1000 * (count - left_) / most_));
    }

private:
    const double most_;
    double left_;
    Clock::time_point at_ = Clock::now();
};

}
