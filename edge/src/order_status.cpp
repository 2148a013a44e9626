#include "order_status.h"

#include <quickfix/FixFieldNumbers.h>

#include <algorithm>
#include <stdexcept>

#include "lines.h"
#include "messages.h"
#include "orders.h"
#include "questions.h"
#include "seconds.h"

namespace edge {

namespace {

using FIX::Message;
namespace FIELD = FIX::FIELD;

constexpr int UNKNOWN_ORDER = 5, OTHER = 99;   // Reasons of 103.
constexpr std::size_t BYTES_FOR_ORDER = 1024;  // So many may wait for a client for each order of one answer.
constexpr std::size_t LONGEST_NAME = 64;
const char *const NONE = "NONE";                                         // The OrderID of no order.
constexpr char PENDING_NEW = 'A', EXPIRED = 'C', PENDING_REPLACE = 'E';  // States of 39.

/// Whether an order is one that a question asks for, by the symbol and the side that this has.
bool isAskedFor(const Message &asked, const std::string &symbol, char side) {
    const std::string symbolAsked = textOf(asked, FIELD::Symbol), sideAsked = textOf(asked, FIELD::Side);
    return (symbolAsked.empty() || symbolAsked == symbol) && (sideAsked.empty() || sideAsked == std::string(1, side));
}

}

constexpr std::size_t OrderStatus::MOST_ORDERS;

void OrderStatus::send(Message &message) const {
    if (!session_->send(message)) throw std::runtime_error("the store of its session takes nothing in");
}

void OrderStatus::refuse(const Message &asked, int nameField, int reason, const std::string &why) const {
    Message told = questionReject(asked, nameField, reason, why);
    send(told);
}

void OrderStatus::asked(const Message &message) {
    const bool isOfOne = message.getHeader().getField(FIELD::MsgType) == "H";
    const int name = isOfOne ? FIELD::ClOrdID : FIELD::MassStatusReqID;
    const std::string fault = nameFaultOf(message, isOfOne);
    if (!fault.empty()) return refuse(message, name, OTHER_REASON, fault);
    for (const Trader *const it : venuesFor(message, isOfOne)) {
        if (!it->isReady()) return refuse(message, name, NOT_AVAILABLE, "the venue isn't there");
        if (!it->knowsAll())
            return refuse(message, name, NOT_AVAILABLE, "the venue hasn't said what it has taken of before");
    }
    const std::set<int> &dropped = member_.limits.dropped;
    const int other =
        isOfOne
            ? otherFieldOf(message, {name, FIELD::OrderID, FIELD::OrdStatusReqID, FIELD::Symbol, FIELD::Side}, dropped)
            : otherFieldOf(message, {name, FIELD::MassStatusReqType, FIELD::Symbol, FIELD::Side}, dropped);
    if (other)
        return refuse(message, name, OTHER_REASON, "field " + std::to_string(other) + " isn't one of this venue");
    if (isOfOne) askedOne(message);
    else askedMany(message);
}

/// The venues that a question is about: that of its symbol, or all.
OrderStatus::Those OrderStatus::venuesFor(const Message &asked, bool isOfOne) const {
    const std::string symbol = textOf(asked, FIELD::Symbol);
    if (isOfOne || !symbol.empty()) return {&traders_.of(symbol)};
    return traders_.all();
}

/// What is wrong with the names of a question, or nothing. An order's own name may be one that the edge has given it.
std::string OrderStatus::nameFaultOf(const Message &asked, bool isOfOne) const {
    const std::string order = textOf(asked, FIELD::ClOrdID), one = textOf(asked, FIELD::OrdStatusReqID);
    if (isOfOne && order.size() > LONGEST_NAME) return "ClOrdID (11) is longer than 64 bytes";
    if (isOfOne && !one.empty() && !Orders::isName(one))
        return "OrdStatusReqID (790) isn't of 1 to 64 bytes that print, or begins with edge-";
    if (!isOfOne && !Orders::isName(textOf(asked, FIELD::MassStatusReqID)))
        return "MassStatusReqID (584) isn't of 1 to 64 bytes that print, or begins with edge-";
    return "";
}

std::string OrderStatus::priceOf(const std::string &symbol, long steps) const {
    const auto tick = ticks_.find(symbol);
    return tick == ticks_.end() ? std::to_string(steps) : tick->second.priceOf(steps);
}

/// How an order is that rests, or has ended. One that its day has ended is told as its member was told that.
Message OrderStatus::statusOf(const Place &at, const OpenOrder &order) const {
    const bool isExpired = order.status == '4' && at.trader->names().is(order.endedBy, Names::Kind::Expiry);
    Message it = made("8");
    it.setField(FIELD::AvgPx, priceOf(order.symbol, order.average));
    it.setField(FIELD::ClOrdID, at.trader->names().nameOf(at.number));
    it.setField(FIELD::CumQty, std::to_string(order.filled));
    it.setField(FIELD::OrderID, (order.orderId == NONE ? "" : at.trader->venue().letter) + order.orderId);
    it.setField(FIELD::OrderQty, std::to_string(order.quantity));
    it.setField(FIELD::OrdStatus, std::string(1, isExpired ? EXPIRED : order.status));
    if (order.price) it.setField(FIELD::Price, priceOf(order.symbol, order.price));
    it.setField(FIELD::Side, std::string(1, order.side));
    it.setField(FIELD::Symbol, order.symbol);
    const bool rests = order.status == '0' || order.status == '1';
    it.setField(FIELD::LeavesQty, std::to_string(rests ? std::max(0L, order.quantity - order.filled) : 0));
    return it;
}

/// How an order is that the venue hasn't answered, or one whose replace it hasn't.
Message OrderStatus::statusOf(const Place &at, const Request &underWay) const {
    const OpenOrder *const replaced =
        at.trader->open().find(at.trader->names().numberOf(underWay.original, underWay.desk));
    OpenOrder it{NONE, underWay.symbol, underWay.side, false, ""};
    if (replaced) it = *replaced;
    it.price = underWay.price;
    it.quantity = underWay.quantity;
    it.status = '0';
    Message told = statusOf(at, it);
    told.setField(FIELD::OrdStatus, std::string(1, underWay.isOrder() ? PENDING_NEW : PENDING_REPLACE));
    if (!underWay.isOrder()) told.setField(FIELD::OrigClOrdID, underWay.original);
    return told;
}

bool OrderStatus::isKnown(const Place &at) {
    const Trader &trader = *at.trader;
    const auto underWay = trader.underWay().find(at.number);
    return trader.open().find(at.number) || trader.open().findEnded(at.number) ||
           (underWay != trader.underWay().end() && underWay->second.mayRest());
}

Message OrderStatus::statusOf(const Place &at) const {
    const Trader &trader = *at.trader;
    const OpenOrder *order = trader.open().find(at.number);
    if (!order) order = trader.open().findEnded(at.number);
    Message told = order ? statusOf(at, *order) : statusOf(at, trader.underWay().at(at.number));
    told.setField(FIELD::ExecID, "0");
    told.setField(FIELD::ExecType, "I");
    told.setField(FIELD::TransactTime, timeNow());
    return told;
}

/// The answer where there is no order to be told of.
Message OrderStatus::noneOf(const Message &asked, int reason, const std::string &why) const {
    Message told = made("8");
    for (const int tag : {FIELD::ClOrdID, FIELD::OrdStatusReqID, FIELD::MassStatusReqID}) copy(asked, told, tag);
    told.setField(FIELD::OrderID, NONE);
    told.setField(FIELD::ExecID, "0");
    told.setField(FIELD::ExecType, "I");
    told.setField(FIELD::OrdStatus, "8");
    told.setField(FIELD::OrdRejReason, std::to_string(reason));
    const std::string side = textOf(asked, FIELD::Side), symbol = textOf(asked, FIELD::Symbol);
    told.setField(FIELD::Side, side.empty() ? "7" : side);  // Undisclosed.
    told.setField(FIELD::Symbol, symbol.empty() ? "[N/A]" : symbol);
    told.setField(FIELD::TransactTime, timeNow());
    told.setField(FIELD::Text, SAID_BY_EDGE + why);
    for (const int tag : {FIELD::AvgPx, FIELD::CumQty, FIELD::LeavesQty}) told.setField(tag, "0");
    return told;
}

void OrderStatus::askedOne(const Message &message) {
    const std::string name = textOf(message, FIELD::ClOrdID);
    const Trader &trader = traders_.of(textOf(message, FIELD::Symbol));
    Names &names = trader.names();
    const long number = names.numberOf(name, member_.desk);
    const auto underWay = trader.underWay().find(number);
    if (isKnown({&trader, number})) return tellOne(message, {&trader, number});
    if (underWay != trader.underWay().end())
        return refuse(message, FIELD::ClOrdID, OTHER_REASON,
                      "the name is of a cancel, which the venue hasn't answered");
    if (names.is(number, Names::Kind::Request) || names.is(number, Names::Kind::GoodTillCancel))
        return refuse(message, FIELD::ClOrdID, OTHER_REASON,
                      "no order of this name rests, and how it ended isn't known here any more, or the name is of a "
                      "cancel or a replace");
    Message told = noneOf(message, UNKNOWN_ORDER,
                          "ClOrdID (11) is of no order that is known here: of none that has come to the venue, or of "
                          "one that ended in a day before");
    send(told);
}

/// Tells of an order that is known. An answer of another symbol or side would be of an order that isn't there.
void OrderStatus::tellOne(const Message &asked, const Place &at) const {
    Message told = statusOf(at);
    if (!isAskedFor(asked, told.getField(FIELD::Symbol), told.getField(FIELD::Side)[0]))
        return refuse(asked, FIELD::ClOrdID, OTHER_REASON, "the order has another Symbol (55) or Side (54)");
    copy(asked, told, FIELD::OrdStatusReqID);
    send(told);
}

std::size_t OrderStatus::mostOrders() const {
    return std::min(MOST_ORDERS, member_.limits.unsentBytes / BYTES_FOR_ORDER);
}

/// The orders that a question about many asks for: those that rest, and those that the venue hasn't answered.
OrderStatus::Places OrderStatus::placesFor(const Message &many) const {
    Places places;
    for (const Trader *const trader : venuesFor(many, false)) {
        for (const auto &it : trader->open().all())
            if (it.second.desk == member_.desk && isAskedFor(many, it.second.symbol, it.second.side))
                places.push_back({trader, it.first});
        for (const auto &it : trader->underWay())
            if (it.second.desk == member_.desk && it.second.isOrder() && !trader->open().find(it.first) &&
                isAskedFor(many, it.second.symbol, it.second.side))
                places.push_back({trader, it.first});
    }
    return places;
}

/// Why a question about many isn't answered, or nothing.
std::string OrderStatus::refusalOf(const Message &many) const {
    const std::string type = textOf(many, FIELD::MassStatusReqType), symbol = textOf(many, FIELD::Symbol);
    const std::string side = textOf(many, FIELD::Side);
    if (type != "1" && type != "7")
        return "MassStatusReqType (585) " + shown(type) + " isn't had: 1 is of a symbol's orders, 7 of all";
    if (type == "7" && !symbol.empty())
        return "Symbol (55) stands beside a MassStatusReqType (585) of 7, which is of all symbols";
    if (type == "1" && symbol.empty()) return "Symbol (55) is missing";
    if (type == "1" && !ticks_.count(symbol)) return "Symbol (55) isn't traded here";
    if (!side.empty() && side != "1" && side != "2")
        return "Side (54) " + shown(side) + " isn't traded: 1 buys, 2 sells";
    return "";
}

void OrderStatus::askedMany(const Message &message) {
    std::string why = refusalOf(message);
    const Places places = why.empty() ? placesFor(message) : Places();
    if (why.empty() && places.empty()) why = "there is no such order";
    if (places.size() > mostOrders())
        why = std::to_string(places.size()) + " orders are more than one answer has, " + std::to_string(mostOrders()) +
              ": ask by Symbol (55) and Side (54)";
    if (!why.empty()) {
        Message told = noneOf(message, OTHER, why);
        told.setField(FIELD::TotNumReports, "0");
        told.setField(FIELD::LastRptRequested, "Y");
        send(told);
        return;
    }
    for (const Place &at : places) {
        Message told = statusOf(at);
        copy(message, told, FIELD::MassStatusReqID);
        told.setField(FIELD::TotNumReports, std::to_string(places.size()));
        if (&at == &places.back()) told.setField(FIELD::LastRptRequested, "Y");
        send(told);
    }
}

}
