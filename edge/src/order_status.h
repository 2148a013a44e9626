#pragma once

// Answers what a member asks of its own orders (35=H, 35=AF), by what the trader.h of each venue knows of them.

#include <quickfix/Session.h>

#include <cstddef>
#include <map>
#include <set>
#include <string>
#include <vector>

#include "open_orders.h"
#include "settings.h"
#include "ticks.h"
#include "traders.h"

namespace edge {

/// How a member's orders are. Each answer is an ExecutionReport of ExecType (150) I, which tells nothing new.
class OrderStatus {
public:
    static constexpr std::size_t MOST_ORDERS = 1000;

    OrderStatus(const MemberSettings &member, const std::map<std::string, Tick> &ticks, const Traders &traders)
        : member_(member), ticks_(ticks), traders_(traders) {}

    void attach(FIX::Session &session) { session_ = &session; }

    /// Answers a question about one order (H), or about many (AF).
    void asked(const FIX::Message &message);

private:
    /// An order, by its venue and its number there.
    struct Place {
        const Trader *trader;
        long number;
    };

    using Places = std::vector<Place>;
    using Those = std::vector<Trader *>;

    void refuse(const FIX::Message &asked, int nameField, int reason, const std::string &why) const;
    void askedOne(const FIX::Message &message);
    void askedMany(const FIX::Message &message);
    std::string refusalOf(const FIX::Message &many) const;
    Those venuesFor(const FIX::Message &asked, bool isOfOne) const;
    Places placesFor(const FIX::Message &many) const;
    std::size_t mostOrders() const;
    static bool isKnown(const Place &at);
    FIX::Message statusOf(const Place &at) const;
    FIX::Message statusOf(const Place &at, const OpenOrder &order) const;
    FIX::Message statusOf(const Place &at, const Request &underWay) const;
    std::string nameFaultOf(const FIX::Message &asked, bool isOfOne) const;
    void tellOne(const FIX::Message &asked, const Place &at) const;
    FIX::Message noneOf(const FIX::Message &asked, int reason, const std::string &why) const;
    std::string priceOf(const std::string &symbol, long steps) const;
    void send(FIX::Message &message) const;

    const MemberSettings &member_;
    const std::map<std::string, Tick> &ticks_;
    const Traders &traders_;
    FIX::Session *session_ = nullptr;
};

}
