#include "securities.h"

#include <quickfix/FixFieldNumbers.h>
#include <quickfix/Group.h>

#include <stdexcept>

#include "lines.h"
#include "messages.h"
#include "orders.h"
#include "questions.h"
#include "seconds.h"

namespace edge {

namespace {

using FIX::Message;
namespace FIELD = FIX::FIELD;

// Types of requests for symbols (559), results (560), a text as the type of an attribute (871), and states (326).
constexpr const char *ONE = "0", *ALL = "4", *GRANTED = "0", *NONE_FOUND = "2", *AS_TEXT = "99";
constexpr const char *HALTED = "2", *RESUMED = "3";

void addAttribute(FIX::Group &into, const std::string &name, const std::string &value) {
    FIX::Group it(FIELD::NoInstrAttrib, FIELD::InstrAttribType, FIX::message_order(871, 872, 0));
    it.setField(FIELD::InstrAttribType, AS_TEXT);
    it.setField(FIELD::InstrAttribValue, name + "=" + value);
    into.addGroup(it);
}

Message statusOf(const std::string &symbol, bool isHalted) {
    Message told = made("f");
    told.setField(FIELD::Symbol, symbol);
    told.setField(FIELD::UnsolicitedIndicator, "Y");
    told.setField(FIELD::SecurityTradingStatus, isHalted ? HALTED : RESUMED);
    told.setField(FIELD::TransactTime, timeNow());
    told.setField(FIELD::Text, SAID_BY_EDGE + std::string("the operator ") +
                                   (isHalted ? "has halted " + symbol : "lets " + symbol + " trade"));
    return told;
}

}

Securities::Securities(const Settings &settings, const Traders &traders, const MarketData &market)
    : settings_(settings), traders_(traders), symbols_(settings.symbols()), market_(market) {}

void Securities::send(Message &message) const {
    if (!session_->send(message)) throw std::runtime_error("the store of its session takes nothing in");
}

/// Why a request isn't answered by a list, or nothing.
std::string Securities::refusalOf(const Message &asked) const {
    const int other = otherFieldOf(
        asked, {FIELD::SecurityReqID, FIELD::SecurityListRequestType, FIELD::Symbol, FIELD::SubscriptionRequestType},
        settings_.member.limits.dropped);
    const std::string type = textOf(asked, FIELD::SecurityListRequestType), symbol = textOf(asked, FIELD::Symbol);
    const std::string kind = textOf(asked, FIELD::SubscriptionRequestType);
    if (other) return "field " + std::to_string(other) + " isn't one of this venue";
    if (!Orders::isName(textOf(asked, FIELD::SecurityReqID)))
        return "SecurityReqID (320) isn't of 1 to 64 bytes that print, or begins with edge-";
    if (type != ONE && type != ALL)
        return "SecurityListRequestType (559) " + shown(type) + " isn't had: 0 is of one symbol, 4 of all";
    if (type == ONE && symbol.empty()) return "Symbol (55) is missing";
    if (type == ALL && !symbol.empty())
        return "Symbol (55) stands beside a SecurityListRequestType (559) of 4, which is of all symbols";
    if (!kind.empty() && kind != "0" && kind != "1" && kind != "2")
        return "SubscriptionRequestType (263) " + shown(kind) + " isn't 0, 1 or 2";
    return "";
}

std::vector<std::string> Securities::symbolsFor(const Message &asked) const {
    const std::string symbol = textOf(asked, FIELD::Symbol);
    if (symbol.empty()) return symbols_;
    return settings_.ticks.count(symbol) ? std::vector<std::string>{symbol} : std::vector<std::string>();
}

void Securities::asked(const Message &message) {
    const std::string why = refusalOf(message), kind = textOf(message, FIELD::SubscriptionRequestType);
    if (!why.empty()) {
        Message told = questionReject(message, FIELD::SecurityReqID, OTHER_REASON, why);
        send(told);
        return;
    }
    const std::vector<std::string> symbols = symbolsFor(message);
    Message told = listOf(message, symbols);
    send(told);
    for (const std::string &symbol : symbols) {
        if (kind == "1") watched_.insert(symbol);
        if (kind == "2") watched_.erase(symbol);
        told_[symbol] = traders_.switches().isHalted(symbol);
    }
}

Message Securities::listOf(const Message &asked, const std::vector<std::string> &symbols) {
    Message told = made("y");
    copy(asked, told, FIELD::SecurityReqID);
    told.setField(FIELD::SecurityResponseID, "E" + timeNow() + "-" + std::to_string(session_->getExpectedSenderNum()));
    told.setField(FIELD::SecurityRequestResult, symbols.empty() ? NONE_FOUND : GRANTED);
    told.setField(FIELD::TotNoRelatedSym, std::to_string(symbols.size()));
    told.setField(FIELD::LastFragment, "Y");
    for (const std::string &symbol : symbols) add(told, symbol);
    return told;
}

/// A symbol with what an order of it has to keep to, each as a text: FIX 4.4 has no fields of these.
void Securities::add(Message &into, const std::string &symbol) const {
    const Tick &tick = settings_.ticks.at(symbol);
    FIX::Group it(FIELD::NoRelatedSym, FIELD::Symbol, FIX::message_order(55, 870, 561, 562, 0));
    it.setField(FIELD::Symbol, symbol);
    it.setField(FIELD::RoundLot, "1");
    it.setField(FIELD::MinTradeVol, "1");
    addAttribute(it, "PriceStep", tick.text());
    addAttribute(it, "GreatestPrice", tick.priceOf(MOST));
    addAttribute(it, "GreatestQuantity", std::to_string(MOST));
    addAttribute(it, "Halted", traders_.switches().isHalted(symbol) ? "Y" : "N");
    for (const Limit limit : ALL_LIMITS)
        if (traders_.of(symbol).limiter(settings_.member.desk).isSet(limit))
            addAttribute(it, nameOf(limit), traders_.of(symbol).limiter(settings_.member.desk).valueOf(limit));
    into.addGroup(it);
}

bool Securities::isWatched(const std::string &symbol) const {
    return watched_.count(symbol) || market_.isTaking(symbol);
}

/// A client that has asked for nothing yet takes each symbol for one that trades.
bool Securities::isTold(const std::string &symbol) const {
    const auto told = told_.find(symbol);
    const bool isHalted = traders_.switches().isHalted(symbol);
    return told == told_.end() ? !isHalted && !(isUnsure_ && changed_.count(symbol)) : told->second == isHalted;
}

bool Securities::isBehind() const {
    for (const std::string &symbol : symbols_)
        if (isWatched(symbol) && !isTold(symbol)) return true;
    return false;
}

void Securities::tell(const std::function<bool()> &hasRoom) {
    for (const std::string &symbol : symbols_) {
        if (!isWatched(symbol) || isTold(symbol)) continue;
        if (!hasRoom()) return;
        const bool isHalted = told_[symbol] = traders_.switches().isHalted(symbol);
        changed_.insert(symbol);
        Message told = statusOf(symbol, isHalted);
        send(told);
    }
}

void Securities::beginAnew() {
    told_.clear();
    isUnsure_ = true;
}

void Securities::end() {
    watched_.clear();
    told_.clear();
    changed_.clear();
    isUnsure_ = false;
}

}
