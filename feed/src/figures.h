#pragma once

// How a feed fares, for its page: feed.h writes here, and the page's thread reads.

#include <atomic>
#include <chrono>
#include <mutex>
#include <string>
#include <vector>

namespace feed {

/// Counts and times of a feed. Of any thread.
struct Figures {
    using Clock = std::chrono::steady_clock;

    std::atomic<bool> isConnected{false}, isPublishing{false};
    std::atomic<long> read{0}, published{0}, refusals{0}, claimsLost{0}, restarts{0};
    std::atomic<Clock::rep> oldest{0};  // When the oldest event was read that isn't acknowledged; 0: there is none.

    /// Notes how long an event took from where it was read to where it was acknowledged.
    void note(Clock::duration lag);

    /// How it fares, in a line.
    std::string text() const;

    /// The same for Prometheus.
    std::string figures() const;

private:
    double secondsBehind() const;
    double quantile(double part) const;

    mutable std::mutex mutex_;  // Of these:
    std::vector<float> lags_;
    std::size_t next_ = 0;
};

}
