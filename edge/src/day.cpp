#include "day.h"

#include <quickfix/FieldConvertors.h>
#include <quickfix/FixFieldNumbers.h>

#include <algorithm>
#include <ctime>
#include <stdexcept>
#include <string>
#include <vector>

#include "lines.h"
#include "reports.h"
#include "seconds.h"
#include "sequence.h"

namespace edge {

namespace {

constexpr int AT_ONCE = 1000;  // Messages that are read from a store in one go.

/// What is said of so many reports.
std::string words(std::size_t count) {
    return std::to_string(count) + " reports that it wasn't sent are told again";
}

/// Whether a report is told again in the next day: no answer to a message of the day that has ended, as a Reject is.
bool isReport(const FIX::Message &it) {
    const std::string &type = it.getHeader().getField(FIX::FIELD::MsgType);
    return type == "8" || type == "9" || type == "r";
}

}

void Day::attach(FIX::Session &session, Store &store) {
    session_ = &session;
    store_ = &store;
    heard_ = Heard(record_.state().heard);
    owed_.attach();
    began_ = record_.state().created.getTimeT();
}

/// Numbers that began in the days to come are those of a clock that was wrong: no day would end until then. While what
/// was told of the journal may be taken back, no day ends.
bool Day::isOver() {
    const long now = std::time(nullptr);
    if (began_ > now + Schedule::DAY) {
        say(name_, "its numbers began at " + timeOf(began_) + ", by a clock that was wrong, or is: they began now");
        record_.change().created = FIX::UtcTimeStamp();
        began_ = now;
    }
    return !owes() && !record_.ofMember().mayTakeBack() && hours_.isOver(began_, now);
}

bool Day::isOpen() const {
    return hours_.isOpen(std::time(nullptr));
}

/// An end in the days to come was one of a clock that was wrong: the next one is that behind now.
std::string Day::endOfOrders(VenueRecord &venue) {
    const long now = std::time(nullptr), ended = venue.state().ordersEnded;
    const bool isAhead = ended > now + Schedule::DAY;
    if (!isAhead && !ofOrders_.isOver(ended, now)) return "";
    const long end = venue.change().ordersEnded = ofOrders_.lastEnd(now);
    return isAhead ? "" : timeOf(end);
}

/// Whether what these old numbers have is told again in pieces.
bool Day::isInPieces(long from, long end) const {
    return isOfCopies_ || (record_.ofMember().hasHadDesks() && end - from > AT_ONCE);
}

/// Puts the reports that have these numbers behind the new ones: the numbers that they had. Where the new ones begin
/// with 1 each is put where one stood that has been read. By the dictionary fields of a group stay behind its count.
std::vector<int> Day::tellAgain(long from, long end) {
    const FIX::DataDictionary &dictionary =
        session_->getDataDictionaryProvider().getSessionDataDictionary(session_->getSessionID().getBeginString());
    std::vector<int> told;
    std::vector<std::string> messages;
    for (; from < end; from += AT_ONCE) {
        store_->get(static_cast<int>(from), static_cast<int>(std::min(from + AT_ONCE, end)) - 1, messages);
        for (const std::string &text : messages) {
            FIX::Message it(text, dictionary, false);
            if (!isReport(it)) continue;
            told.push_back(FIX::IntConvertor::convert(it.getHeader().getField(FIX::FIELD::MsgSeqNum)));
            it.getHeader().setField(FIX::FIELD::PossResend, "Y");
            if (!session_->send(it)) throw std::runtime_error("the store of its session takes nothing in");
        }
    }
    return told;
}

/// Drops the messages of these numbers, which are told under other ones.
void Day::dropEach(const std::vector<int> &numbers) {
    for (const int it : numbers) store_->drop(it, it + 1);
}

void Day::begin() {
    const long from = heard_.end(), end = session_->getExpectedSenderNum();
    store_->beginDay();
    if (isInPieces(from, end)) owed_.begin(from, end);
    const std::size_t count = owes() ? 0 : tellAgain(from, end).size();
    if (!owes()) store_->dropRest();
    attach(*session_, *store_);
    begun_ = "a new day: numbers begin with 1" + (count ? ", and " + words(count) : "");
}

long Day::goOnWith(long number) {
    const long from = heard_.end(), end = session_->getExpectedSenderNum();
    session_->setNextSenderMsgSeqNum(static_cast<int>(number));
    if (isInPieces(from, end)) owed_.begin(from, end);
    const std::vector<int> told = owes() ? std::vector<int>() : tellAgain(from, end);
    dropEach(told);
    record_.change().heard = number;
    record_.ofMember().wentUp(record_.desk());
    attach(*session_, *store_);
    return static_cast<long>(told.size());
}

long Day::goUpTo(long number) {
    const long next = session_->getExpectedSenderNum(), heard = heard_.end();
    if (owes() || heard >= number || heard == wentUpTo_) return 0;
    const bool isFar = number - next > MOST_STEP || number > MOST_NUMBER;
    const long count = isFar ? 0 : goOnWith(std::max(number, next));
    wentUp_ = "its engine expects number " + std::to_string(number) + " where " + std::to_string(next) +
              " is next, as if in another day: " +
              (isFar ? "that is too far away" : "the numbers go on with " + std::to_string(std::max(number, next))) +
              (count ? ", and " + words(static_cast<std::size_t>(count)) : "");
    if (!isFar) wentUpTo_ = heard_.end();
    return owes() ? store_->keptOf(owed_.next(), owed_.end() - 1) : count;
}

/// Tells the next piece, and drops the old reports that it has read: each new number is one of those that have been
/// read, or is above all of them. What isn't told again stays where an engine may ask for that.
void Day::tellOwed() {
    passStep();
    const long from = owed_.next(), last = owed_.end(), end = std::min(from + AT_ONCE, last);
    const std::vector<int> told = tellAgain(from, end);
    const long next = session_->getExpectedSenderNum();
    if (next <= end) store_->drop(next, end);
    else dropEach(told);
    const long all = owed_.reached(end, told.size());
    if (owes()) return;
    if (next <= last) store_->dropRest();
    record_.numbersBegan();
    if (all) toldAgain_ = words(static_cast<std::size_t>(all));
}

/// Where numbers were passed over since the last piece, as the end of the record may be lost, none of them may be that
/// of a message which is to be told again.
void Day::passStep() {
    const long sender = session_->getExpectedSenderNum();
    if (sender == owed_.sender()) return;
    store_->drop(owed_.sender(), owed_.next());
    if (sender > owed_.next()) session_->setNextSenderMsgSeqNum(static_cast<int>(std::max(sender, owed_.end() + 1)));
}

void Day::committed() {
    if (!wentUp_.empty()) session_->getLog()->onEvent(wentUp_);
    for (std::string *const it : {&begun_, &wentUp_, &toldAgain_}) {
        if (!it->empty()) say(name_, *it);
        it->clear();
    }
}

void Day::answered(const Judged &message, long next) {
    if (!session_->isLoggedOn()) return;
    if (message.is(FIX::FIELD::MsgType, "A")) {
        const bool hasReset = message.is(FIX::FIELD::ResetSeqNumFlag, "Y");
        if (hasReset) attach(*session_, *store_);
        heard_.loggedOn(hasReset ? 1 : next);
    } else if (message.is(FIX::FIELD::MsgType, "2")) {
        const long last = message.number(FIX::FIELD::EndSeqNo);
        heard_.asked(last && last < next ? last + 1 : next);
    }
}

void Day::written(std::size_t unsent) {
    if (!unsent) heard_.written(session_->getExpectedSenderNum());
}

void Day::keep() {
    if (record_.state().heard != heard_.end()) record_.change().heard = heard_.end();
}

}
