#include "limiter.h"

#include <algorithm>

namespace edge {

namespace {

// Reasons of 103 for orders, and of 102 for replaces.
constexpr int OPTION = 0, EXCEEDS = 3, EXCHANGE_OPTION = 2;

constexpr char BUYS = '1';

std::string joined(const std::set<std::string> &words) {
    std::string all;
    for (const std::string &it : words) all += (all.empty() ? "" : " ") + it;
    return all;
}

}

bool Limiter::isSet(Limit limit) const {
    switch (limit) {
        case Limit::Symbols: return !limits_.symbols.empty();
        case Limit::Quantity: return limits_.quantity;
        case Limit::Value: return limits_.value;
        case Limit::Collar: return limits_.collar.isSet();
        case Limit::Closing: return limits_.isClosing;
        case Limit::OpenValue: return limits_.openValue;
        case Limit::MembersOpenValue: return limits_.membersOpenValue;
        case Limit::SelfTrade: break;
    }
    return limits_.selfTrade != SelfTrade::Any;
}

/// The value of a limit, as the settings have it.
std::string Limiter::valueOf(Limit limit) const {
    switch (limit) {
        case Limit::Symbols: return joined(limits_.symbols);
        case Limit::Quantity: return std::to_string(limits_.quantity);
        case Limit::Value: return std::to_string(limits_.value);
        case Limit::Collar: return limits_.collar.text;
        case Limit::Closing: return "Y";
        case Limit::OpenValue: return std::to_string(limits_.openValue);
        case Limit::MembersOpenValue: return std::to_string(limits_.membersOpenValue);
        case Limit::SelfTrade: break;
    }
    return limits_.selfTrade == SelfTrade::CancelNew ? "CancelNew" : "CancelOld";
}

/// A limit with its value, as `MaxOrderValue (5000)`.
std::string Limiter::wordsOf(Limit limit) const {
    return std::string(nameOf(limit)) + " (" + valueOf(limit) + ")";
}

/// The first limit that it breaks refuses it.
void Limiter::judge(const Request &it, long original) {
    if (!limits_.symbols.empty()) needSymbol(it);
    if (limits_.quantity) needQuantity(it);
    if (limits_.value) needValue(it);
    if (limits_.collar.isSet()) needCollar(it);
    if (limits_.isClosing) needClosing(it, original);
    if (limits_.openValue) needOpenValue(it, original);
    if (limits_.membersOpenValue) needMembersValue(it, original);
    if (limits_.selfTrade != SelfTrade::Any) needOther(it);
}

void Limiter::refuse(Limit limit, const Request &it, int reason, const std::string &text) {
    refusals_[static_cast<std::size_t>(limit)]++;
    throw Refused(it.isOrder() ? reason : EXCHANGE_OPTION, text);
}

void Limiter::refuseUnknown(const Request &it) {
    const Limit limit = limits_.openValue          ? Limit::OpenValue
                        : limits_.membersOpenValue ? Limit::MembersOpenValue
                        : limits_.isClosing        ? Limit::Closing
                                                   : Limit::SelfTrade;
    refuse(limit, it, OPTION, wordsOf(limit) + " can't be judged: the venue hasn't said what it has taken of before");
}

void Limiter::needSymbol(const Request &it) {
    if (limits_.symbols.count(it.symbol)) return;
    refuse(Limit::Symbols, it, OPTION, "Symbol (55) " + it.symbol + " is none of " + wordsOf(Limit::Symbols));
}

void Limiter::needQuantity(const Request &it) {
    if (it.quantity <= limits_.quantity) return;
    refuse(Limit::Quantity, it, EXCEEDS,
           "OrderQty (38) " + std::to_string(it.quantity) + " is above " + wordsOf(Limit::Quantity));
}

long Limiter::priceOf(const Request &it) const {
    return it.price ? it.price : referenceOf(it.symbol);
}

/// The last trade of a symbol, or what the settings have in its place before there is one.
long Limiter::referenceOf(const std::string &symbol) const {
    const long last = market_.lastTradeOf(symbol);
    const auto found = limits_.reference.find(symbol);
    return last || found == limits_.reference.end() ? last : found->second;
}

/// A market order has a value once there is a last trade.
void Limiter::needPrice(Limit limit, const Request &it) {
    if (priceOf(it)) return;
    refuse(limit, it, EXCEEDS,
           "a market order has no value before the first trade of " + it.symbol + ", which " + wordsOf(limit) +
               " needs: send a limit order");
}

void Limiter::needValue(const Request &it) {
    needPrice(Limit::Value, it);
    const Money value = ticks_.at(it.symbol).valueOf(priceOf(it), it.quantity);
    if (value <= moneyOf(limits_.value)) return;
    refuse(Limit::Value, it, EXCEEDS, "the order's value " + textOf(value) + " is above " + wordsOf(Limit::Value));
}

/// Nothing bounds what a market order pays: a collar takes none.
void Limiter::needCollar(const Request &it) {
    const std::string collar = wordsOf(Limit::Collar);
    if (!it.price)
        refuse(Limit::Collar, it, EXCEEDS,
               "a market order has no price to be within " + collar + ": send a limit order");
    const long reference = referenceOf(it.symbol);
    if (!reference)
        refuse(Limit::Collar, it, EXCEEDS,
               "no trade of " + it.symbol + " is known, nor a ReferencePrices, for " + collar);
    const long width = limits_.collar.widthAt(reference), low = std::max(1L, reference - width),
               high = std::min(MOST, reference + width);
    if (it.price >= low && it.price <= high) return;
    const Tick &tick = ticks_.at(it.symbol);
    refuse(Limit::Collar, it, EXCEEDS,
           "Price (44) " + tick.priceOf(it.price) + " isn't " + tick.priceOf(low) + " to " + tick.priceOf(high) +
               ", which is " + collar + " round " + tick.priceOf(reference));
}

/// All orders of its side together may close the position, and open none: those of all desks, since the position is of
/// all of them.
void Limiter::needClosing(const Request &it, long original) {
    const long position = own_.positionOf(it.symbol), closes = it.side == BUYS ? -position : position;
    const long all = own_.quantityWith(original, it), asked = own_.openOf(original, it);
    if (all <= std::max(0L, closes)) return;
    refuse(Limit::Closing, it, OPTION,
           std::string(it.side == BUYS ? "a purchase of " : "a sale of ") + std::to_string(asked) + " beside " +
               std::to_string(all - asked) + " that are open would do more than close the position of " +
               std::to_string(position) + ": " + wordsOf(Limit::Closing));
}

void Limiter::needOpenValue(const Request &it, long original) {
    needPrice(Limit::OpenValue, it);
    const Money value = own_.desksValueWith(original, it, priceOf(it)) + elsewhere_.openValue(it.desk);
    if (value <= moneyOf(limits_.openValue)) return;
    refuse(Limit::OpenValue, it, EXCEEDS,
           "the value of all that is open would be " + textOf(value) + ", above " + wordsOf(Limit::OpenValue));
}

/// The same of all that the member's desks have open.
void Limiter::needMembersValue(const Request &it, long original) {
    needPrice(Limit::MembersOpenValue, it);
    const Money value = own_.valueWith(original, it, priceOf(it)) + elsewhere_.openValue(0);
    if (value > moneyOf(limits_.membersOpenValue))
        refuse(Limit::MembersOpenValue, it, EXCEEDS,
               "the value of all that its member has open would be " + textOf(value) + ", above " +
                   wordsOf(Limit::MembersOpenValue));
}

/// An order of the member itself may go in front of a new one; that of another desk is in other hands.
void Limiter::needOther(const Request &it) {
    const std::string words = wordsOf(Limit::SelfTrade);
    const std::string desk = market_.deskCrossedBy(it.symbol, it.side, it.price);
    if (!desk.empty())
        refuse(Limit::SelfTrade, it, OPTION,
               "it would trade with an order of " + desk + ", of the same firm: " + words);
    if (limits_.selfTrade != SelfTrade::CancelNew || own_.crossedBy(it.symbol, it.side, it.price).empty()) return;
    refuse(Limit::SelfTrade, it, OPTION, "it would trade with an order of this member: " + words);
}

}
