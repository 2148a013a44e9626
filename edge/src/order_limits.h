#pragma once

// The limits that a member's orders have by its settings, in front of the venue: limiter.h judges by them.

#include <quickfix/Dictionary.h>

#include <array>
#include <map>
#include <set>
#include <string>

#include "money.h"
#include "ticks.h"

namespace edge {

/// The limits, in the order in which an order is judged by them.
enum class Limit { Symbols, Quantity, Value, Collar, Closing, OpenValue, MembersOpenValue, SelfTrade };
constexpr Limit ALL_LIMITS[] = {Limit::Symbols,          Limit::Quantity, Limit::Value,
                                Limit::Collar,           Limit::Closing,  Limit::OpenValue,
                                Limit::MembersOpenValue, Limit::SelfTrade};
constexpr std::size_t LIMITS = sizeof ALL_LIMITS / sizeof *ALL_LIMITS;

/// The name of the setting that a limit has.
const char *nameOf(Limit limit);

/// The name of the setting that bounds what all desks of a member have open.
constexpr const char *MEMBERS_OPEN_VALUE = "MemberMaxOpenValue";

/// How far a price may be from another one: so many steps, or a part of it.
struct Collar {
    long steps = 0;       // 0: it isn't in steps.
    long hundredths = 0;  // Of a per cent; 0: it isn't in per cent.
    std::string text;     // As the settings have it.

    bool isSet() const { return steps || hundredths; }

    /// How many steps this is from a price of so many.
    long widthAt(long price) const { return hundredths ? price * hundredths / 10000 : steps; }
};

/// What becomes of an order that would trade with another one of its firm.
enum class SelfTrade { Any, CancelNew, CancelOld };

/// What a member's orders may be at most. What isn't set has no bound.
struct OrderLimits {
    std::set<std::string> symbols;          // That it may trade; empty: all.
    long quantity = 0;                      // The most of OrderQty (38).
    long value = 0, openValue = 0;          // The most of an order and of all that is open, in whole units,
    long membersOpenValue = 0;              // and of all that the member's desks have open together.
    Collar collar;                          // Round the market's last trade.
    std::map<std::string, long> reference;  // Prices in steps that stand for the last trade before there is one.
    bool isClosing = false;                 // Only what makes the position smaller.
    SelfTrade selfTrade = SelfTrade::Any;
    std::set<std::string> desks;  // The other members of its firm, as C2.

    /// Whether it has to be known what is open, and what the market's last trade was.
    bool needsOpen() const { return openValue || membersOpenValue || isClosing || selfTrade != SelfTrade::Any; }
    bool needsTrades() const { return collar.isSet() || value || openValue || membersOpenValue; }
    bool needsMarket() const { return needsTrades() || !desks.empty(); }
};

/// The limits of the settings of this member, as C1, with these symbols: what is wrong in them is a BadSetting.
OrderLimits orderLimitsOf(const FIX::Dictionary &from, const std::map<std::string, Tick> &ticks,
                          const std::string &member);

}
