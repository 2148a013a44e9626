#include "order_limits.h"

#include <algorithm>

#include "setting_values.h"
#include "settings.h"

namespace edge {

namespace {

using FIX::Dictionary;

constexpr long GREATEST = 999999999999999;    // Of a value, in whole units.
constexpr long MOST_HUNDREDTHS = 100 * 1000;  // A collar of 1000 per cent.
constexpr std::size_t PARTS = 2, DIGITS = 4;  // Of a per cent: behind the point, and in front of it.
const char *const NAMES[] = {"TradeSymbols", "MaxOrderQuantity", "MaxOrderValue",    "PriceCollar",
                             "OnlyClosing",  "MaxOpenValue",     MEMBERS_OPEN_VALUE, "SelfTrade"};
const char *const REFERENCES = "ReferencePrices", *const FIRM = "Firm";

bool areDigits(const std::string &text) {
    return !text.empty() && text.find_first_not_of("0123456789") == std::string::npos;
}

/// Hundredths of a per cent of a text as 5 or 2.25, or 0 where it is none.
long hundredthsOf(const std::string &text) {
    const std::size_t point = text.find('.');
    std::string whole = text.substr(0, point), part = point == std::string::npos ? "0" : text.substr(point + 1);
    if (!areDigits(whole) || whole.size() > DIGITS || !areDigits(part) || part.size() > PARTS) return 0;
    part.append(PARTS - part.size(), '0');
    return std::stol(whole) * 100 + std::stol(part);
}

Collar collarOf(const Dictionary &from) {
    const char *const name = nameOf(Limit::Collar);
    Collar it;
    if (!from.has(name)) return it;
    it.text = textOf(from, name);
    if (it.text.back() != '%') {
        it.steps = numberOf(from, name, 0, MOST);
        return it;
    }
    it.hundredths = hundredthsOf(it.text.substr(0, it.text.size() - 1));
    if (it.hundredths < 1 || it.hundredths > MOST_HUNDREDTHS)
        throw BadSetting(name, "isn't of whole steps, nor 0.01% to 1000%: " + it.text);
    return it;
}

std::set<std::string> symbolsOf(const Dictionary &from, const std::map<std::string, Tick> &ticks) {
    const char *const name = nameOf(Limit::Symbols);
    std::set<std::string> symbols;
    if (!from.has(name)) return symbols;
    for (const std::string &word : wordsOf(textOf(from, name))) {
        if (!ticks.count(word)) throw BadSetting(name, "has what is none of Symbols: " + word);
        symbols.insert(word);
    }
    return symbols;
}

/// Prices in steps, of words as ABC:50.25.
std::map<std::string, long> referencesOf(const Dictionary &from, const std::map<std::string, Tick> &ticks) {
    std::map<std::string, long> prices;
    if (!from.has(REFERENCES)) return prices;
    for (const std::string &word : wordsOf(textOf(from, REFERENCES))) {
        const std::string symbol = word.substr(0, word.find(':'));
        const auto tick = ticks.find(symbol);
        if (tick == ticks.end()) throw BadSetting(REFERENCES, "has what is none of Symbols: " + word);
        const long steps = symbol.size() == word.size() ? 0 : tick->second.stepsOf(word.substr(symbol.size() + 1));
        if (!steps) throw BadSetting(REFERENCES, "isn't of SYMBOL:PRICE in whole steps, as ABC:50.25: " + word);
        if (!prices.emplace(symbol, steps).second) throw BadSetting(REFERENCES, "has one twice: " + symbol);
    }
    return prices;
}

SelfTrade selfTradeOf(const Dictionary &from) {
    const char *const name = nameOf(Limit::SelfTrade);
    const std::string text = from.has(name) ? textOf(from, name) : "Any";
    if (text == "Any") return SelfTrade::Any;
    if (text == "CancelNew") return SelfTrade::CancelNew;
    if (text == "CancelOld") return SelfTrade::CancelOld;
    throw BadSetting(name, "isn't Any, CancelNew or CancelOld: " + text);
}

/// The other members of the firm, of words as C1 C2 C5, one of which is this member.
std::set<std::string> desksOf(const Dictionary &from, const std::string &member, SelfTrade selfTrade) {
    std::set<std::string> desks;
    if (!from.has(FIRM)) return desks;
    if (selfTrade == SelfTrade::Any) throw BadSetting(FIRM, "has no use where SelfTrade isn't CancelNew or CancelOld");
    for (const std::string &word : wordsOf(textOf(from, FIRM))) {
        if (!isMember(word)) throw BadSetting(FIRM, "isn't of members, as C1 C2: " + word);
        desks.insert(word);
    }
    if (!desks.erase(member)) throw BadSetting(FIRM, "lacks the member whose firm it is: " + member);
    return desks;
}

}

const char *nameOf(Limit limit) {
    return NAMES[static_cast<std::size_t>(limit)];
}

OrderLimits orderLimitsOf(const Dictionary &from, const std::map<std::string, Tick> &ticks, const std::string &member) {
    OrderLimits it;
    it.symbols = symbolsOf(from, ticks);
    it.quantity = numberOr(from, nameOf(Limit::Quantity), 0, MOST, 0);
    it.value = numberOr(from, nameOf(Limit::Value), 0, GREATEST, 0);
    it.openValue = numberOr(from, nameOf(Limit::OpenValue), 0, GREATEST, 0);
    it.membersOpenValue = numberOr(from, nameOf(Limit::MembersOpenValue), 0, GREATEST, 0);
    it.collar = collarOf(from);
    it.reference = referencesOf(from, ticks);
    it.isClosing = flagOr(from, nameOf(Limit::Closing), false);
    it.selfTrade = selfTradeOf(from);
    it.desks = desksOf(from, member, it.selfTrade);
    return it;
}

}
