#include "own_trades.h"

#include <quickfix/FixFieldNumbers.h>
#include <quickfix/Group.h>

#include <algorithm>
#include <stdexcept>
#include <utility>

#include "fields.h"
#include "lines.h"
#include "messages.h"
#include "orders.h"
#include "questions.h"

namespace edge {

namespace {

using FIX::Message;
namespace FIELD = FIX::FIELD;

constexpr long AT_ONCE = 200;  // Messages of the store that are looked at in one turn.

// Results (749) and states (750) of a request.
constexpr int GRANTED = 0, BAD_SYMBOL = 1, BAD_TYPE = 8, OTHER = 99;
constexpr const char *ACCEPTED = "0", *COMPLETED = "1", *REJECTED = "2";

constexpr std::size_t DAY = 8;  // Digits of a day, and of the day in a time.

const char *const FILL = "\001150=F\1";  // What the report of a trade has in it.

/// The answer to a request, by which it is granted, at its end, or refused.
Message ackOf(const Message &asked, int result, const char *state) {
    Message told = made("AQ");
    for (const int tag : {FIELD::TradeRequestID, FIELD::TradeRequestType}) copy(asked, told, tag);
    const std::string symbol = textOf(asked, FIELD::Symbol);
    told.setField(FIELD::Symbol, symbol.empty() ? "[N/A]" : symbol);
    told.setField(FIELD::TradeRequestResult, std::to_string(result));
    told.setField(FIELD::TradeRequestStatus, state);
    return told;
}

/// A trade as its report of the store has it.
Message tradeOf(const Message &asked, const Fields &stored) {
    Message told = made("AE");
    copy(asked, told, FIELD::TradeRequestID);
    told.setField(FIELD::TradeReportID, stored.text(17));
    told.setField(FIELD::PreviouslyReported, "N");
    told.setField(FIELD::ExecID, stored.text(17));
    for (const int tag : {FIELD::Symbol, FIELD::LastQty, FIELD::LastPx, FIELD::TransactTime})
        told.setField(tag, stored.text(tag));
    told.setField(FIELD::TradeDate, stored.text(60).substr(0, DAY));
    FIX::Group side(FIELD::NoSides, FIELD::Side, FIX::message_order(54, 37, 11, 0));
    for (const int tag : {FIELD::Side, FIELD::OrderID, FIELD::ClOrdID}) side.setField(tag, stored.text(tag));
    told.addGroup(side);
    return told;
}

}

OwnTrades::OwnTrades(const MemberSettings &member, const std::map<std::string, Tick> &ticks, Record &record)
    : member_(member),
      ticks_(ticks),
      record_(record, member.desk),
      messages_(record.database(),
                "SELECT number, bytes FROM messages WHERE number > ? AND number < ?"
                " ORDER BY number LIMIT ?") {}

void OwnTrades::send(Message &message) const {
    if (!session_->send(message)) throw std::runtime_error("the store of its session takes nothing in");
}

void OwnTrades::refuse(const Message &asked, int result, const std::string &why) const {
    Message told = ackOf(asked, result, REJECTED);
    told.setField(FIELD::Text, SAID_BY_EDGE + why);
    send(told);
}

/// Why a request isn't granted, apart from its type and its symbol, or nothing.
std::string OwnTrades::refusalOf(const Message &asked) const {
    const int other = otherFieldOf(asked,
                                   {FIELD::TradeRequestID, FIELD::TradeRequestType, FIELD::Symbol, FIELD::Side,
                                    FIELD::ClOrdID, FIELD::OrderID, FIELD::SubscriptionRequestType, FIELD::NoDates},
                                   member_.limits.dropped);
    const std::string kind = textOf(asked, FIELD::SubscriptionRequestType);
    if (other) return "field " + std::to_string(other) + " isn't one of this venue";
    if (!Orders::isName(textOf(asked, FIELD::TradeRequestID)))
        return "TradeRequestID (568) isn't of 1 to 64 bytes that print, or begins with edge-";
    if (!kind.empty() && kind != "0")
        return "SubscriptionRequestType (263) " + shown(kind) + " isn't had: 0 is, or none";
    if (isBehind()) return "another TradeCaptureReportRequest is being answered";
    return "";
}

/// One day, or the first and the last one of several.
void OwnTrades::readDays(const Message &asked, Wanted &into) const {
    const std::size_t count = asked.groupCount(FIELD::NoDates);
    for (std::size_t at = 1; at <= count; at++) {
        const FIX::FieldMap &entry = *asked.getGroupPtr(static_cast<int>(at), FIELD::NoDates);
        const std::string day = textOf(entry, FIELD::TradeDate);
        const bool isDay = day.size() == DAY && day.find_first_not_of("0123456789") == std::string::npos;
        if (count > 2 || !isDay || entry.isSetField(FIELD::TransactTime))
            throw std::invalid_argument("NoDates (580) isn't of one or two TradeDates (75), as 20260721");
        (at == 1 ? into.from : into.to) = day;
    }
    if (count == 1) into.to = into.from;
}

void OwnTrades::asked(const Message &message) {
    const std::string type = textOf(message, FIELD::TradeRequestType), symbol = textOf(message, FIELD::Symbol);
    const std::string why = refusalOf(message);
    if (!why.empty()) return refuse(message, OTHER, why);
    if (type != "0" && type != "1")
        return refuse(message, BAD_TYPE, "TradeRequestType (569) " + shown(type) + " isn't had: 0 and 1 are");
    if (!symbol.empty() && !ticks_.count(symbol)) return refuse(message, BAD_SYMBOL, "Symbol (55) isn't traded here");
    std::unique_ptr<Wanted> wanted(new Wanted);
    try {
        readDays(message, *wanted);
    } catch (const std::invalid_argument &fault) {
        return refuse(message, OTHER, fault.what());
    }
    record_.ofMember().fillTables();
    wanted->asked = message;
    wanted->end = record_.state().sender;
    wanted_ = std::move(wanted);
    Message told = ackOf(message, GRANTED, ACCEPTED);
    send(told);
}

/// Whether a report is of a trade that is asked for.
bool OwnTrades::Wanted::takes(const Fields &stored) const {
    for (const int tag : {FIELD::Symbol, FIELD::Side, FIELD::ClOrdID, FIELD::OrderID}) {
        const std::string text = textOf(asked, tag);
        if (!text.empty() && text != stored.text(tag)) return false;
    }
    const std::string day = stored.text(60).substr(0, DAY);
    return from.empty() || (day >= std::min(from, to) && day <= std::max(from, to));
}

/// The next reports of trades that are asked for; the end is told where nothing more is stored.
std::vector<OwnTrades::Stored> OwnTrades::next(long &looked) {
    std::vector<Stored> found;
    for (Rows rows = messages_.of(record_.place(wanted_->at), record_.place(wanted_->end), AT_ONCE); rows.next();
         looked++) {
        wanted_->at = numberAt(rows.number(0));
        const std::string bytes = rows.bytes(1);
        if (bytes.find(FILL) == std::string::npos) continue;
        if (wanted_->takes(Fields(bytes.data(), bytes.size(), '\1'))) found.emplace_back(wanted_->at, bytes);
    }
    if (looked < AT_ONCE) wanted_->at = wanted_->end;
    return found;
}

void OwnTrades::tellHeld(bool isLast) {
    if (wanted_->held.empty()) return;
    Message told = tradeOf(wanted_->asked, Fields(wanted_->held.data(), wanted_->held.size(), '\1'));
    if (isLast) told.setField(FIELD::LastRptRequested, "Y");
    send(told);
    wanted_->count++;
    wanted_->held.clear();
}

long OwnTrades::tell(const std::function<bool()> &hasRoom) {
    if (!isBehind() || !hasRoom()) return 0;
    if (wanted_->isLost) {
        refuse(wanted_->asked, OTHER, "what was told of it may be lost, as a ResendRequest says: ask again");
        wanted_.reset();
        return 0;
    }
    long looked = 0;
    for (Stored &it : next(looked)) {
        if (!hasRoom()) {
            wanted_->at = it.first - 1;
            return looked;
        }
        tellHeld(false);
        wanted_->held = std::move(it.second);
    }
    if (wanted_->at < wanted_->end) return looked;
    tellHeld(true);
    Message told = ackOf(wanted_->asked, GRANTED, COMPLETED);
    told.setField(FIELD::TotNumTradeReports, std::to_string(wanted_->count));
    send(told);
    wanted_.reset();
    return looked;
}

}
