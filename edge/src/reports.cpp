#include "reports.h"

#include <quickfix/FixFieldNumbers.h>

#include <chrono>

#include "message_types.h"
#include "messages.h"
#include "seconds.h"

namespace edge {

namespace {

using FIX::Message;
namespace FIELD = FIX::FIELD;

const char *const ENDED = "the day has ended";
const char *const CANCELLED = "the operator has cancelled this order";
// What the first of several desks is told with a report that may be another one's.
const char *const OF_NO_DESK = "nobody knows which desk sent this request";
const char *const EXPIRED = "C";  // An ExecType (150), and an OrdStatus (39).
const char *const LOST = "EL";    // So begins the ExecID of a report of a lost request, with its number behind.

/// Makes it one that QuickFIX doesn't count: it was sent before, and has the number 0.
void uncount(Message &it) {
    const FIX::SendingTime now(FIX::UtcTimeStamp(), 3);
    it.getHeader().setField(FIX::MsgSeqNum(0));
    it.getHeader().setField(FIX::PossDupFlag(true));
    it.getHeader().setField(now);
    it.getHeader().setField(FIELD::OrigSendingTime, now.getString());
}

/// An answer to a mass cancel, that has what this asked for.
Message massReport(const Message &asked) {
    Message told = made("r");
    for (const int tag : {FIELD::ClOrdID, FIELD::MassCancelRequestType, FIELD::Symbol, FIELD::Side})
        copy(asked, told, tag);
    told.setField(FIELD::TransactTime, timeNow());
    return told;
}

/// The state of an order that the edge speaks of in a cancel reject.
std::string stateOf(const OpenOrder *order) {
    return !order ? "8" : order->isFilledInPart ? "1" : "0";
}

}

/// The body of a report of the venue, whose fields are put in the order of their tags, as the library writes them.
class Reports::Body {
public:
    Body() { text_.reserve(USUAL); }

    void put(int tag, const std::string &value) {
        begin(tag);
        text_ += value;
        text_ += '\1';
    }

    /// Puts the value that a field of the report has.
    void copy(const Fields &report, int tag) { copy(report, tag, tag); }
    void copy(const Fields &report, int from, int tag) {
        begin(tag);
        report.append(from, text_);
        text_ += '\1';
    }

    /// The same with this text in front.
    void copyBehind(const std::string &front, const Fields &report, int tag) {
        begin(tag);
        text_ += front;
        report.append(tag, text_);
        text_ += '\1';
    }

    void copyWhereIs(const Fields &report, int tag) {
        if (report.has(tag)) copy(report, tag);
    }

    const std::string &text() const { return text_; }

private:
    void begin(int tag) {
        text_ += std::to_string(tag);
        text_ += '=';
    }

    static constexpr std::size_t USUAL = 256;  // Hardly any body has more bytes.

    std::string text_;
};

std::string Reports::priceOf(const std::string &symbol, long steps) const {
    const auto tick = ticks_.find(symbol);
    return tick == ticks_.end() ? std::to_string(steps) : tick->second.priceOf(steps);
}

std::string Reports::of(const Fields &report) const {
    return report.byte(FIELD::MsgType) == '8' ? executionOf(report) : rejectOf(report);
}

/// Whether a report tells the end of what is Day, which is a cancel by the edge to the venue.
bool Reports::isEnd(const Fields &report) const {
    return report.byte(FIELD::ExecType) == '4' && report.has(FIELD::OrigClOrdID) &&
           names_.isExpiry(report.number(FIELD::ClOrdID));
}

/// Whether a report tells the end of an order that an operator has had cancelled.
bool Reports::isByOperator(const Fields &report) const {
    return report.byte(FIELD::ExecType) == '4' && report.has(FIELD::OrigClOrdID) &&
           names_.isOfOperator(report.number(FIELD::ClOrdID));
}

std::string Reports::executionOf(const Fields &report) const {
    const bool isOver = isEnd(report);
    Body it;
    it.put(FIELD::AvgPx, priceOf(report.text(FIELD::Symbol), report.number(FIELD::AvgPx)));
    it.put(FIELD::ClOrdID, names_.nameOf(report.number(isOver ? FIELD::OrigClOrdID : FIELD::ClOrdID)));
    it.copy(report, FIELD::CumQty);
    it.copyBehind(letter_, report, FIELD::ExecID);
    putFill(report, it);
    it.copyBehind(letter_, report, FIELD::OrderID);
    it.copy(report, FIELD::OrderQty);
    if (isOver) putEnd(report, it);
    else putState(report, it);
    it.copy(report, FIELD::LeavesQty);
    return it.text();
}

/// What was traded by this report, if something was.
void Reports::putFill(const Fields &report, Body &into) const {
    if (report.has(FIELD::LastQty) && !lastCapacity_.empty()) into.put(FIELD::LastCapacity, lastCapacity_);
    putPrice(report, FIELD::LastPx, into);
    into.copyWhereIs(report, FIELD::LastQty);
}

/// Puts a price of a report, where that has it, with the decimals of its symbol.
void Reports::putPrice(const Fields &report, int tag, Body &into) const {
    if (report.has(tag)) into.put(tag, priceOf(report.text(FIELD::Symbol), report.number(tag)));
}

/// Whether a report is told to the first of several desks since nobody knows whose it is.
bool Reports::isOfNoDesk(const Fields &report) const {
    return names_.isOfNoDesk(report.number(FIELD::ClOrdID)) ||
           (report.has(FIELD::OrigClOrdID) && names_.isOfNoDesk(report.number(FIELD::OrigClOrdID)));
}

/// Puts the venue's text, or who has cancelled an order, with a word in front of it where the report is of no desk.
void Reports::putText(const Fields &report, Body &into) const {
    std::string text = report.has(FIELD::Text) ? report.text(FIELD::Text) : "";
    if (isByOperator(report)) text = std::string(SAID_BY_EDGE) + CANCELLED;
    if (isOfNoDesk(report)) text = OF_NO_DESK + (text.empty() ? "" : ": " + text);
    if (!text.empty()) into.put(FIELD::Text, text);
}

/// What an order has become.
void Reports::putState(const Fields &report, Body &into) const {
    into.copy(report, FIELD::OrdStatus);
    if (report.has(FIELD::OrigClOrdID)) into.put(FIELD::OrigClOrdID, names_.nameOf(report.number(FIELD::OrigClOrdID)));
    putPrice(report, FIELD::Price, into);
    into.copy(report, FIELD::Side);
    into.copy(report, FIELD::Symbol);
    putText(report, into);
    into.copy(report, FIELD::SendingTime, FIELD::TransactTime);
    into.copyWhereIs(report, FIELD::OrdRejReason);
    into.copy(report, FIELD::ExecType);
}

/// What is Day ends by itself, as its member sees it: no cancel of that was asked for.
void Reports::putEnd(const Fields &report, Body &into) const {
    into.put(FIELD::OrdStatus, EXPIRED);
    putPrice(report, FIELD::Price, into);
    into.copy(report, FIELD::Side);
    into.copy(report, FIELD::Symbol);
    into.put(FIELD::Text, std::string(SAID_BY_EDGE) + ENDED);
    into.copy(report, FIELD::SendingTime, FIELD::TransactTime);
    into.put(FIELD::ExecType, EXPIRED);
}

std::string Reports::rejectOf(const Fields &report) const {
    Body it;
    it.put(FIELD::ClOrdID, names_.nameOf(report.number(FIELD::ClOrdID)));
    it.copyBehind(report.number(FIELD::OrderID) ? letter_ : "", report, FIELD::OrderID);  // Else there is no order.
    it.copy(report, FIELD::OrdStatus);
    it.put(FIELD::OrigClOrdID, names_.nameOf(report.number(FIELD::OrigClOrdID)));
    if (isOfNoDesk(report)) it.put(FIELD::Text, OF_NO_DESK);
    it.copy(report, FIELD::SendingTime, FIELD::TransactTime);
    it.copy(report, FIELD::CxlRejReason);
    it.copy(report, FIELD::CxlRejResponseTo);
    return it.text();
}

/// A number that no report of the venue has, and none of the edge before.
std::string Reports::nextExecId() {
    using namespace std::chrono;
    const auto now = duration_cast<microseconds>(system_clock::now().time_since_epoch()).count();
    return letter_ + "E" + std::to_string(now) + "." + std::to_string(++refusals_);
}

/// The price that was asked for, with the decimals of its symbol where that has such a price.
void Reports::copyPrice(const Message &asked, Message &told, const std::string &symbol) const {
    const auto tick = ticks_.find(symbol);
    const long steps = tick == ticks_.end() ? 0 : tick->second.stepsOf(textOf(asked, FIELD::Price));
    if (steps) told.setField(FIELD::Price, tick->second.priceOf(steps));
    else copy(asked, told, FIELD::Price);
}

Message Reports::refusal(const Message &asked, const Request &it, const OpenOrder *order, int reason,
                         const std::string &text) {
    if (it.isMassCancel()) return massRefusal(asked, reason, text);
    Message told = made(it.isOrder() ? "8" : "9");
    copy(asked, told, FIELD::ClOrdID);
    told.setField(FIELD::OrderID, order ? letter_ + order->orderId : "NONE");
    told.setField(FIELD::TransactTime, timeNow());
    told.setField(FIELD::Text, SAID_BY_EDGE + text);
    if (!it.isOrder()) {
        copy(asked, told, FIELD::OrigClOrdID);
        told.setField(FIELD::OrdStatus, stateOf(order));
        told.setField(FIELD::CxlRejReason, std::to_string(reason));
        told.setField(FIELD::CxlRejResponseTo, it.type == 'F' ? "1" : "2");
        return told;
    }
    for (const int tag : {FIELD::Symbol, FIELD::Side, FIELD::OrderQty}) copy(asked, told, tag);
    copyPrice(asked, told, it.symbol);
    told.setField(FIELD::ExecID, nextExecId());
    told.setField(FIELD::ExecType, "8");
    told.setField(FIELD::OrdStatus, "8");
    told.setField(FIELD::OrdRejReason, std::to_string(reason));
    told.setField(FIELD::AvgPx, priceOf(it.symbol, 0));
    for (const int tag : {FIELD::CumQty, FIELD::LeavesQty}) told.setField(tag, "0");
    return told;
}

/// Of the reasons of 532 there are 0 and 1: a greater one is of 103 or 102. What FIX has for all others, 99, is refused
/// by QuickFIX's own dictionary, by which that field has one byte.
Message Reports::massRefusal(const Message &asked, int reason, const std::string &text) const {
    Message told = massReport(asked);
    told.setField(FIELD::OrderID, "NONE");
    told.setField(FIELD::MassCancelResponse, "0");
    if (reason <= 1) told.setField(FIELD::MassCancelRejectReason, std::to_string(reason));
    told.setField(FIELD::Text, SAID_BY_EDGE + text);
    return told;
}

Message Reports::massCancelled(const Message &asked, long number, std::size_t count) const {
    Message told = massReport(asked);
    told.setField(FIELD::OrderID, letter_ + "E" + std::to_string(number));
    told.setField(FIELD::MassCancelResponse, textOf(asked, FIELD::MassCancelRequestType));
    told.setField(FIELD::TotalAffectedOrders, std::to_string(count));
    return told;
}

Message Reports::lost(long number, const std::string &why) const {
    Message told = made("8");
    told.setField(FIELD::ClOrdID, names_.nameOf(number));
    told.setField(FIELD::OrderID, "NONE");
    told.setField(FIELD::ExecID, letter_ + LOST + std::to_string(number));
    told.setField(FIELD::ExecType, "8");
    told.setField(FIELD::OrdStatus, "8");
    told.setField(FIELD::OrdRejReason, "99");
    told.setField(FIELD::Side, "7");  // Undisclosed: the request isn't at hand.
    told.setField(FIELD::Symbol, "[N/A]");
    told.setField(FIELD::TransactTime, timeNow());
    told.setField(FIELD::Text, SAID_BY_EDGE + why);
    for (const int tag : {FIELD::AvgPx, FIELD::CumQty, FIELD::LeavesQty}) told.setField(tag, "0");
    return told;
}

bool Reports::isOfVenue(const Fields &stored) {
    if (stored.byte(35) == '8') return stored.number(17) > 0;
    return stored.byte(35) == '9' && stored.text(58).compare(0, 6, SAID_BY_EDGE);
}

Message sessionReject(const Judged &refused) {
    Message told = made("3");
    told.setField(FIELD::RefSeqNum, std::to_string(refused.number(FIELD::MsgSeqNum)));
    if (refused.tag()) told.setField(FIELD::RefTagID, std::to_string(refused.tag()));
    told.setField(FIELD::RefMsgType, refused.text(FIELD::MsgType));
    told.setField(FIELD::SessionRejectReason, std::to_string(refused.reason()));
    told.setField(FIELD::Text, SAID_BY_EDGE + refused.why());
    return told;
}

Message rangeReject(const Judged &refused, int tag) {
    Message told = made("3");
    told.setField(FIELD::RefSeqNum, std::to_string(refused.number(FIELD::MsgSeqNum)));
    told.setField(FIELD::RefTagID, std::to_string(tag));
    told.setField(FIELD::RefMsgType, refused.text(FIELD::MsgType));
    told.setField(FIELD::SessionRejectReason, "5");
    told.setField(FIELD::Text, SAID_BY_EDGE + std::string("field ") + std::to_string(tag) + " is too far away");
    return told;
}

Message resendRequest(long first) {
    Message asked = made("2");
    asked.setField(FIELD::BeginSeqNo, std::to_string(first));
    asked.setField(FIELD::EndSeqNo, "0");
    return asked;
}

Message typeReject(const Judged &message, bool takesRequests) {
    Message told = made("j");
    told.setField(FIELD::RefSeqNum, std::to_string(message.number(FIELD::MsgSeqNum)));
    told.setField(FIELD::RefMsgType, message.text(FIELD::MsgType));
    told.setField(FIELD::BusinessRejectReason, "3");
    told.setField(FIELD::Text, SAID_BY_EDGE + (takesRequests ? requestTypes() + " are the types of requests here"
                                                             : "this session is sent copies, and takes no requests"));
    return told;
}

std::string uncountedReject(const FIX::SessionID &session, const Judged &logon, const std::string &why) {
    Message told = made("3");
    told.getHeader().setField(session.getBeginString());
    told.getHeader().setField(session.getSenderCompID());
    told.getHeader().setField(session.getTargetCompID());
    uncount(told);
    told.setField(FIELD::RefSeqNum, std::to_string(logon.number(FIELD::MsgSeqNum)));
    told.setField(FIELD::RefMsgType, "A");
    told.setField(FIELD::SessionRejectReason, "99");
    told.setField(FIELD::Text, SAID_BY_EDGE + why);
    return told.toString();
}

bool isLogout(const std::string &message) {
    return typeOf(message) == "5";
}

bool isCountedAnyway(const std::string &message) {
    if (!isLogout(message) && typeOf(message) != "3") return false;
    return Fields(message.data(), message.size(), '\1').number(FIELD::MsgSeqNum) > 1;
}

std::string uncounted(const std::string &message, long last) {
    Message told(message, false);
    uncount(told);
    if (!isLogout(message)) return told.toString();
    told.getHeader().setField(FIELD::MsgType, "3");
    told.setField(FIELD::RefSeqNum, std::to_string(last));
    told.setField(FIELD::SessionRejectReason, "99");
    if (!told.isSetField(FIELD::Text)) told.setField(FIELD::Text, SAID_BY_EDGE + std::string("the session ends"));
    return told.toString();
}

Message sessionLogout(const std::string &why, bool isEdges) {
    Message told = made("5");
    told.setField(FIELD::Text, isEdges ? SAID_BY_EDGE + why : why);
    return told;
}

}
