#include "market_requests.h"

#include <quickfix/FixFieldNumbers.h>
#include <quickfix/FixFields.h>

#include <algorithm>

#include "fields.h"
#include "lines.h"
#include "orders.h"

namespace edge {

namespace {

using FIX::FieldMap;
using FIX::Message;
namespace FIELD = FIX::FIELD;

// Reasons of 281.
constexpr char BAD_TYPE = '4', BAD_DEPTH = '5', BAD_UPDATE = '6', BAD_BOOK = '7', BAD_ENTRY = '8', BAD_SESSION = '9',
               BAD_SCOPE = 'A', BAD_FLAG = 'B', BAD_DELETE = 'C';

constexpr std::size_t DIGITS = 9;  // Of a depth.

/// A field, the one value that it may have where it is there, or nothing where it has none, and the reason if not.
struct Only {
    int tag;
    const char *value;
    char reason;
};

const Only ONLY[] = {
    {FIELD::AggregatedBook, "Y", BAD_BOOK},
    {FIELD::MDImplicitDelete, "N", BAD_DELETE},
    {FIELD::ApplQueueAction, "2", '\0'},
    {FIELD::ApplQueueMax, nullptr, '\0'},
    {FIELD::Scope, nullptr, BAD_SCOPE},
    {FIELD::OpenCloseSettlFlag, nullptr, BAD_FLAG},
    {FIELD::NoTradingSessions, nullptr, BAD_SESSION},
};

std::string wordsOf(int tag, const std::string &value) {
    return "field " + std::to_string(tag) + " of " + shown(value);
}

void needOnly(const Message &message) {
    for (const Only &it : ONLY) {
        const std::string text = textOf(message, it.tag);
        if (text.empty() || (it.value && text == it.value)) continue;
        throw MarketRefused(it.reason, wordsOf(it.tag, text) + " isn't had here" +
                                           (it.value ? std::string(": ") + it.value + " is, or none" : ""));
    }
}

MarketRequest::Kind kindOf(const Message &message) {
    const std::string text = textOf(message, FIELD::SubscriptionRequestType);
    if (text == "0") return MarketRequest::Kind::Snapshot;
    if (text == "1") return MarketRequest::Kind::Subscribe;
    if (text == "2") return MarketRequest::Kind::End;
    throw MarketRefused(BAD_TYPE, "SubscriptionRequestType (263) " + shown(text) + " isn't 0, 1 or 2");
}

std::size_t depthOf(const Message &message) {
    const std::string text = textOf(message, FIELD::MarketDepth);
    const bool isNumber =
        !text.empty() && text.size() <= DIGITS && text.find_first_not_of("0123456789") == std::string::npos;
    if (!isNumber)
        throw MarketRefused(BAD_DEPTH, "MarketDepth (264) " + shown(text) + " isn't 0 or a number of levels");
    return std::stoul(text);
}

/// What goes on is told as a whole or by its changes, which has to be said.
bool isIncrementalBy(const Message &message, MarketRequest::Kind kind) {
    const std::string text = textOf(message, FIELD::MDUpdateType);
    const bool isNeeded = kind == MarketRequest::Kind::Subscribe;
    if (text != "0" && text != "1" && (isNeeded || !text.empty()))
        throw MarketRefused(BAD_UPDATE, text.empty() ? "MDUpdateType (265) is missing"
                                                     : "MDUpdateType (265) " + shown(text) + " isn't 0 or 1");
    return text == "1" && isNeeded;
}

/// The values of the first field of each entry of a group, each of which stands there once.
std::vector<std::string> valuesOf(const Message &message, int group, int tag, char reason) {
    std::vector<std::string> values;
    for (std::size_t at = 1; at <= message.groupCount(group); at++) {
        const FIX::FieldMap &entry = *message.getGroupPtr(static_cast<int>(at), group);
        const std::string text = textOf(entry, tag);
        if (std::find(values.begin(), values.end(), text) != values.end())
            throw MarketRefused(reason, wordsOf(tag, text) + " stands twice");
        values.push_back(text);
    }
    return values;
}

std::string entriesOf(const Message &message) {
    std::string entries;
    for (const std::string &text : valuesOf(message, FIELD::NoMDEntryTypes, FIELD::MDEntryType, BAD_ENTRY)) {
        if (text != "0" && text != "1" && text != "2")
            throw MarketRefused(BAD_ENTRY,
                                "MDEntryType (269) " + shown(text) + " isn't had: 0 is a bid, 1 an offer, 2 a trade");
        entries += text;
    }
    if (entries.empty()) throw MarketRefused(BAD_ENTRY, "NoMDEntryTypes (267) is of none");
    return entries;
}

/// What else stands beside a symbol asks for another thing than that symbol.
void needSymbolAlone(const Message &message, const std::set<int> &dropped) {
    for (std::size_t at = 1; at <= message.groupCount(FIELD::NoRelatedSym); at++)
        for (const auto &field : *message.getGroupPtr(static_cast<int>(at), FIELD::NoRelatedSym))
            if (field.getTag() != FIELD::Symbol && !dropped.count(field.getTag()))
                throw MarketRefused(UNKNOWN_SYMBOL,
                                    "field " + std::to_string(field.getTag()) + " isn't one of this venue");
}

std::vector<std::string> symbolsOf(const Message &message, const std::map<std::string, Tick> &ticks) {
    const std::vector<std::string> symbols = valuesOf(message, FIELD::NoRelatedSym, FIELD::Symbol, UNKNOWN_SYMBOL);
    for (const std::string &symbol : symbols)
        if (!ticks.count(symbol))
            throw MarketRefused(UNKNOWN_SYMBOL, "Symbol (55) " + shown(symbol) + " isn't traded here");
    if (symbols.empty()) throw MarketRefused(UNKNOWN_SYMBOL, "NoRelatedSym (146) is of none");
    return symbols;
}

}

MarketRequest readMarketRequest(const Message &message, const std::map<std::string, Tick> &ticks,
                                const std::set<int> &dropped) {
    MarketRequest it;
    it.id = textOf(message, FIELD::MDReqID);
    if (!Orders::isName(it.id))
        throw MarketRefused('\0', "MDReqID (262) isn't of 1 to 64 bytes that print, or begins with edge-");
    it.kind = kindOf(message);
    if (it.kind == MarketRequest::Kind::End) return it;
    needOnly(message);
    it.depth = depthOf(message);
    it.isIncremental = isIncrementalBy(message, it.kind);
    it.entries = entriesOf(message);
    needSymbolAlone(message, dropped);
    it.symbols = symbolsOf(message, ticks);
    return it;
}

}
