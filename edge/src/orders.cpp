#include "orders.h"

#include <quickfix/FixFieldNumbers.h>

#include "fields.h"

namespace edge {

namespace {

using FIX::Message;
namespace FIELD = FIX::FIELD;

// Reasons for refusals, of 103 for orders and 102 for cancels and replaces.
constexpr int OTHER = 99, UNKNOWN_SYMBOL = 1;

// Of 532 for mass cancels.
constexpr int UNSUPPORTED = 0, BAD_SECURITY = 1;

constexpr std::size_t LONGEST_NAME = 64;

bool isUsed(int tag, char type) {
    const bool isOfOrder = type == 'D' || type == 'G';
    switch (tag) {
        case FIELD::ClOrdID:
        case FIELD::Symbol:
        case FIELD::Side:
        case FIELD::TransactTime: return true;
        case FIELD::OrderQty: return isOfOrder || type == 'F';
        case FIELD::OrdType:
        case FIELD::Price:
        case FIELD::TimeInForce: return isOfOrder;
        case FIELD::OrigClOrdID:
        case FIELD::OrderID: return type == 'F' || type == 'G';  // The venue goes by the ClOrdID alone, as FIX lets it.
        case FIELD::MassCancelRequestType: return type == 'q';
        default: return false;
    }
}

/// Whether a name stands in one line of a file.
bool isPlain(const std::string &name) {
    bool is = !name.empty() && name.size() <= LONGEST_NAME;
    for (const char it : name) is = is && it >= ' ' && it <= '~';
    return is;
}

bool isOfEdge(const std::string &name) {
    return name.compare(0, 5, "edge-") == 0;
}

void needName(const std::string &name, const char *what) {
    if (!isPlain(name)) throw Refused(OTHER, std::string(what) + " isn't of 1 to 64 bytes that print");
    if (isOfEdge(name)) throw Refused(OTHER, std::string(what) + " begins with edge-, as the edge's own do");
}

char sideOf(const Message &message) {
    const std::string text = textOf(message, FIELD::Side);
    if (text != "1" && text != "2") throw Refused(OTHER, "Side (54) " + text + " isn't traded: 1 buys, 2 sells");
    return text[0];
}

char timeInForceOf(const Message &message) {
    const std::string text = textOf(message, FIELD::TimeInForce);
    if (text.empty()) return '\0';
    if (text != "0" && text != "1" && text != "3" && text != "4")
        throw Refused(OTHER, "TimeInForce (59) " + text + " isn't traded: 0, 1, 3 and 4 are");
    return text[0];
}

void needOrderType(const Message &message, char type) {
    const std::string text = textOf(message, FIELD::OrdType);
    if (text != "2" && !(text == "1" && type == 'D'))
        throw Refused(OTHER, "OrdType (40) " + text +
                                 (type == 'D' ? " isn't traded: 1 and 2 are" : " can't be replaced by: 2 can"));
}

long priceOf(const Message &message, const Tick &tick) {
    const std::string text = textOf(message, FIELD::Price);
    if (textOf(message, FIELD::OrdType) == "1") {
        if (!text.empty()) throw Refused(OTHER, "Price (44) of a market order");
        return 0;
    }
    if (text.empty()) throw Refused(OTHER, "Price (44) is missing");
    const long steps = tick.stepsOf(text);
    if (!steps) throw Refused(OTHER, "Price (44) " + text + " isn't of 1 to 1000000 whole steps of " + tick.text());
    return steps;
}

}

bool Orders::isName(const std::string &name) {
    return isPlain(name) && !isOfEdge(name);
}

Request Orders::headOf(const Message &message, int desk) {
    Request it;
    it.desk = desk;
    it.type = message.getHeader().getField(FIELD::MsgType)[0];
    it.name = textOf(message, FIELD::ClOrdID);
    it.original = textOf(message, FIELD::OrigClOrdID);
    it.symbol = textOf(message, FIELD::Symbol);
    return it;
}

void Orders::needKnownFields(const Message &message, char type) const {
    for (const auto &field : message)
        if (!isUsed(field.getTag(), type) && !dropped_.count(field.getTag()))
            throw Refused(OTHER, "field " + std::to_string(field.getTag()) + " isn't one of this venue");
}

Request Orders::read(const Message &message, int desk) const {
    Request it = headOf(message, desk);
    needName(it.name, "ClOrdID (11)");
    if (it.original.empty() && (it.type == 'F' || it.type == 'G')) throw Refused(OTHER, "OrigClOrdID (41) is missing");
    needKnownFields(message, it.type);
    if (it.isMassCancel()) {
        readMassCancel(message, it);
        return it;
    }
    const auto tick = ticks_.find(it.symbol);
    if (tick == ticks_.end()) throw Refused(it.isOrder() ? UNKNOWN_SYMBOL : OTHER, "Symbol (55) isn't traded here");
    it.side = sideOf(message);
    const std::string quantity = textOf(message, FIELD::OrderQty);
    if (it.type != 'F' && quantity.empty()) throw Refused(OTHER, "OrderQty (38) is missing");
    if (!quantity.empty()) it.quantity = wholeQuantity(quantity);
    if (!it.quantity) throw Refused(OTHER, "OrderQty (38) " + quantity + " isn't a whole number of 1 to 1000000");
    if (it.type == 'F') return it;
    needOrderType(message, it.type);
    it.price = priceOf(message, tick->second);
    it.timeInForce = timeInForceOf(message);
    return it;
}

/// Of all orders, or of those of a symbol; of one side, where there is one.
void Orders::readMassCancel(const Message &message, Request &it) const {
    const std::string type = textOf(message, FIELD::MassCancelRequestType);
    if (type != "1" && type != "7")
        throw Refused(UNSUPPORTED, "MassCancelRequestType (530) " + type +
                                       " isn't one of this venue: 1 cancels a symbol's orders, 7 all");
    if (type == "7" && !it.symbol.empty())
        throw Refused(OTHER, "Symbol (55) stands beside a MassCancelRequestType (530) of 7, which is of all symbols");
    if (type == "1" && it.symbol.empty()) throw Refused(BAD_SECURITY, "Symbol (55) is missing");
    if (type == "1" && !ticks_.count(it.symbol)) throw Refused(BAD_SECURITY, "Symbol (55) isn't traded here");
    it.side = message.isSetField(FIELD::Side) ? sideOf(message) : '\0';
}

std::string bodyFor(const Request &it, long number, long original, const std::string &time) {
    std::string body;
    body.reserve(96);
    const auto put = [&body](const char *front, const std::string &value) {
        body += front;
        body += value;
        body += '\1';
    };
    if (!it.isOrder()) put("41=", std::to_string(original));
    put("11=", std::to_string(number));
    put("55=", it.symbol);
    put("54=", std::string(1, it.side));
    put("60=", time);
    put("38=", std::to_string(it.quantity));
    if (it.type == 'F') return body;
    put("40=", it.price ? "2" : "1");
    if (it.price) put("44=", std::to_string(it.price));
    // The venue knows no days: what rests there is good till it is cancelled.
    if (it.timeInForce && !it.isGoodTillCancel()) put("59=", std::string(1, it.timeInForce));
    return body;
}

std::string cancelFor(const OpenOrder &order, long number, long original, const std::string &time) {
    Request it;
    it.type = 'F';
    it.symbol = order.symbol;
    it.side = order.side;
    return bodyFor(it, number, original, time);
}

std::string probeFor(const std::string &symbol, long number, const std::string &time) {
    return cancelFor(OpenOrder{"", symbol, '1', false, ""}, number, number, time);
}

}
