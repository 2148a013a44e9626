#pragma once

#include <array>
#include <atomic>
#include <map>
#include <string>

#include "elsewhere.h"
#include "exposure.h"
#include "market.h"
#include "order_limits.h"
#include "orders.h"
#include "ticks.h"

namespace edge {

/// Judges what a member asks for by the limits of its settings, in front of the venue. trader.h asks it before a
/// request has a number, so what is refused never reaches the venue, and its name is kept as that of a refusal. Of a
/// member with several desks each has a limiter of its own.
class Limiter {
public:
    /// By what the member has open at its venue, of which some is the desk's own, and by what it has elsewhere.
    Limiter(const OrderLimits &limits, const std::map<std::string, Tick> &ticks, const Exposure &own,
            const Market &market, const Elsewhere &elsewhere)
        : limits_(limits), ticks_(ticks), own_(own), market_(market), elsewhere_(elsewhere) {}

    /// An order, or a replace of the order of this number, breaks no limit, or is Refused in words that have the limit
    /// and its value.
    void judge(const Request &it, long original);

    /// What is open has to be known, and isn't yet: that is a refusal, too.
    void refuseUnknown(const Request &it);

    /// The price in steps by which a request is valued: of a market order that of the last trade, or 0.
    long priceOf(const Request &it) const;

    const OrderLimits &limits() const { return limits_; }

    /// Whether there is such a limit, and its value as the settings have it.
    bool isSet(Limit limit) const;
    std::string valueOf(Limit limit) const;

    /// So many requests each limit has refused. Of any thread.
    long refusalsBy(Limit limit) const { return refusals_[static_cast<std::size_t>(limit)]; }

private:
    void needSymbol(const Request &it);
    void needQuantity(const Request &it);
    void needValue(const Request &it);
    void needCollar(const Request &it);
    void needClosing(const Request &it, long original);
    void needOpenValue(const Request &it, long original);
    void needMembersValue(const Request &it, long original);
    void needOther(const Request &it);
    void needPrice(Limit limit, const Request &it);
    long referenceOf(const std::string &symbol) const;
    std::string wordsOf(Limit limit) const;
    [[noreturn]] void refuse(Limit limit, const Request &it, int reason, const std::string &text);

    const OrderLimits &limits_;
    const std::map<std::string, Tick> &ticks_;
    const Exposure &own_;
    const Market &market_;
    const Elsewhere &elsewhere_;
    std::array<std::atomic<long>, LIMITS> refusals_{};
};

}
