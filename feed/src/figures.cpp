#include "figures.h"

#include <algorithm>
#include <sstream>

namespace feed {

namespace {
constexpr std::size_t LAGS = 4096;
}

void Figures::note(Clock::duration lag) {
    const std::lock_guard<std::mutex> lock(mutex_);
    if (lags_.size() < LAGS) lags_.push_back(0);
    lags_[next_ % LAGS] = std::chrono::duration<float>(lag).count();
    next_++;
}

double Figures::secondsBehind() const {
    const Clock::rep since = oldest;
    return since ? std::chrono::duration<double>(Clock::now() - Clock::time_point(Clock::duration(since))).count() : 0;
}

double Figures::quantile(double part) const {
    const std::lock_guard<std::mutex> lock(mutex_);
    if (lags_.empty()) return 0;
    std::vector<float> sorted = lags_;
    const auto at = sorted.begin() + static_cast<std::ptrdiff_t>(part * static_cast<double>(sorted.size() - 1));
    std::nth_element(sorted.begin(), at, sorted.end());
    return *at;
}

std::string Figures::text() const {
    std::ostringstream line;
    line << (isPublishing ? "publishes" : "waits") << ", " << (isConnected ? "connected" : "no server answers") << ", "
         << published << " of " << read << " events published, " << secondsBehind() << " s behind, " << refusals
         << " refusals, " << claimsLost << " claims lost, " << restarts << " restarts\n";
    return line.str();
}

std::string Figures::figures() const {
    std::ostringstream page;
    page << "gikvand_feed_publishes " << isPublishing << "\n"
         << "gikvand_feed_connected " << isConnected << "\n"
         << "gikvand_feed_events_read " << read << "\n"
         << "gikvand_feed_events_published " << published << "\n"
         << "gikvand_feed_behind_events " << std::max(0l, read - published) << "\n"
         << "gikvand_feed_behind_seconds " << secondsBehind() << "\n"
         << "gikvand_feed_refusals_total " << refusals << "\n"
         << "gikvand_feed_claims_lost_total " << claimsLost << "\n"
         << "gikvand_feed_restarts_total " << restarts << "\n";
    for (const double it : {0.5, 0.99})
        page << "gikvand_feed_lag_seconds{quantile=\"" << it << "\"} " << quantile(it) << "\n";
    return page.str();
}

}
