#include "trader.h"

#include <quickfix/FieldConvertors.h>
#include <quickfix/FixFieldNumbers.h>

#include <algorithm>
#include <ctime>
#include <iterator>

#include "lines.h"
#include "messages.h"
#include "seconds.h"
#include "told_names.h"

namespace edge {

namespace {

// Reasons of 103 for orders, and of 102 for cancels and replaces.
constexpr int UNKNOWN_SYMBOL = 1, CLOSED = 2, UNKNOWN_ORDER = 1, EXCHANGE_OPTION = 2, DUPLICATE = 6, OTHER = 99;

// Of what the venue tells while the journal is read. What comes behind that stays unread: the venue keeps 16 MiB of it.
constexpr std::size_t MOST_HELD = 2 << 20;
constexpr std::chrono::seconds PATIENCE(5);       // With a venue that has many requests to answer.
constexpr std::chrono::seconds LONG_READING(15);  // Behind that no Logon waits for a journal.
constexpr long BESIDE = 3;                        // Numbers that a mass cancel takes beside those of its cancels.
constexpr std::size_t SHOWN = 20;                 // Orders of which the names are said.

// Seconds. A name is kept for a day at least, so what is sent again within half of one is known if it came before. The
// clocks of a member and of the edge are no further apart than the library lets them be.
constexpr long OLDEST = 12 * 60 * 60, MOST_APART = 120;

/// An order that is under way, as far as its cancel needs it.
OpenOrder orderOf(const std::string &symbol, char side, const std::string &sent, int desk) {
    OpenOrder it{"", symbol, side, false, sent};
    it.desk = it.owner = desk;
    return it;
}

/// The second that a text of FIX says, or 0 where it says none.
long secondOf(const std::string &text) {
    try {
        return FIX::UtcTimeStampConvertor::convert(text).getTimeT();
    } catch (const FIX::Exception &) {
        return 0;
    }
}

}

constexpr std::size_t Trader::MOST_UNSENT;

Trader::Trader(const Settings &settings, const VenuePlace &venue, Shared &shared, Record &record, Names &names,
               VenueLink &link)
    : member_(settings.member),
      venue_(venue),
      shared_(shared),
      record_(record),
      names_(names),
      link_(link),
      cancels_(names, link),
      switches_(shared.switches()),
      exposure_(settings.ticks),
      market_(settings.ticks, settings.member.limits.orders.desks),
      rate_(shared.rate()) {
    for (const MemberSettings *it : settings.sessions())
        seats_[it->desk].reset(new Seat(*it, settings.ticks, record, names, exposure_, market_, elsewhere_,
                                        venue.letter, shared.rateOf(it->desk)));
}

void Trader::attach(int desk, FIX::Session &session, const Day &day) {
    Seat &seat = seatOf(desk);
    seat.session = &session;
    seat.day = &day;
    seat.teller.attach(session);
    seat.wasLeft = seat.settings.limits.cancelOnDisconnect && !seat.record.state().isSpared;
    seat.cancelledTo = 0;
    if (desk != FIRST_DESK) return;
    counts_.lastReport = names_.state().told.report;
    hasFailed_ = false;
    readSince_ = Bucket::Clock::time_point::max();
    if (!record_.database().isOpen()) return;  // It is tried again.
    cancels_.attach();
}

/// Whether the limits of a desk need that.
bool Trader::needsMarket() const {
    return std::any_of(seats_.begin(), seats_.end(),
                       [](const auto &it) { return it.second->limiter.limits().needsMarket(); });
}

long Trader::refusalsBy(Limit limit) const {
    long count = 0;
    for (const auto &it : seats_) count += it.second->limiter.refusalsBy(limit);
    return count;
}

void Trader::asked(int desk, const FIX::Message &message) {
    try {
        pass(seatOf(desk), message);
    } catch (const std::exception &why) {  // The library wants none of them out of a callback.
        fault_ = why.what();
    }
}

void Trader::pass(Seat &seat, const FIX::Message &message) {
    const int desk = seat.settings.desk;
    const Request head = Orders::headOf(message, desk);
    counts_.requests++;
    try {
        const bool isKnown = this->isKnown(head.name, desk), isAgain = isSentAgain(message);
        if (isKnown && isAgain) {
            const char *const what =
                names_.wasRefused(head.name, desk) ? "was refused before: " : "has been passed on before: ";
            say(seat.settings.deskName(), "a request that was sent again " + (what + shown(head.name)));
            return;
        }
        if (isAgain) needSure(seat, message);
        else if (seat.record.state().isDoubtful) seat.record.change().isDoubtful = false;
        needRate(head);
        if (isKnown) throw Refused(DUPLICATE, "ClOrdID (11) was used before");
        const Request it = seat.orders.read(message, desk);
        if (!isReady_) throw Refused(CLOSED, "the venue isn't there");
        needFewUnderWay(it);
        if (it.isMassCancel()) {
            massCancel(seat, message, it);
            return;
        }
        passWhereAllowed(it);
    } catch (const Refused &why) {
        refuse(seat, message, head, why);
    }
}

/// Whether a desk has used a name before, at whichever venue.
bool Trader::isKnown(const std::string &name, int desk) {
    return names_.isKnown(name, desk) || (desk == FIRST_DESK && elsewhere_.isNameless(name));
}

/// Passes a request on for which there is room, and which neither an operator nor a limit is against.
void Trader::passWhereAllowed(const Request &it) {
    needAllowed(it);
    needRoom(it);
    if (it.isOrder()) needFewOrders(it);
    const long original = originalOf(it);
    if (it.mayRest()) needWithinLimits(it, original);
    passOn(it, original);
}

/// Whether its engine says that it may have sent this before.
bool Trader::isSentAgain(const FIX::Message &message) {
    const FIX::Header &header = message.getHeader();
    return textOf(header, FIX::FIELD::PossDupFlag) == "Y" || textOf(header, FIX::FIELD::PossResend) == "Y";
}

/// A request that is sent again and isn't known is taken only where its name would be known: names of before may have
/// been dropped, or be lost with the end of a record.
void Trader::needSure(const Seat &seat, const FIX::Message &message) const {
    const long time = secondOf(textOf(message, FIX::FIELD::TransactTime)), doubtedAt = record_.state().doubtedAt;
    if (seat.record.state().isDoubtful || time < doubtedAt + MOST_APART)
        throw Refused(OTHER, "it may have been passed on before, and its name lost: send a new one");
    if (time < std::time(nullptr) - OLDEST)
        throw Refused(OTHER, "it may have been passed on before, and is older than 12 hours: send a new one");
}

/// Keeps the name of a request, and sends the request to the venue by its number.
void Trader::passOn(const Request &it, long original) {
    if (!hasNumber()) throw Refused(OTHER, "the venue takes no greater number");
    const std::string time = timeNow();
    const Names::Kind kind = it.isGoodTillCancel() ? Names::Kind::GoodTillCancel : Names::Kind::Request;
    const long number = names_.add(it.name, kind, it.desk);
    const char type[] = {it.type, '\0'};
    Request &sent = underWay_.add(number, it);
    sent.time = time;
    Seat &seat = seatOf(it.desk);
    if (it.mayRest()) exposure_.sent(number, original, it, seat.limiter.priceOf(it));
    sent.sequence = link_.send(type, bodyFor(it, number, original, time), time);
    if (hasManyUnderWay(seat)) seat.fullAt = Bucket::Clock::now();
}

long Trader::originalOf(const Request &it) const {
    if (it.isOrder()) return 0;
    const long number = names_.numberOf(it.original, it.desk);
    if (!number) throw Refused(UNKNOWN_ORDER, "OrigClOrdID (41) is of no order");
    return number;
}

void Trader::needRate(const Request &it) {
    Bucket &own = seatOf(it.desk).rate;
    const int reason = it.isOrder() ? OTHER : EXCHANGE_OPTION, most = seatOf(it.desk).settings.limits.messagesPerSecond;
    if (!own.hasRoom()) throw Refused(reason, "more than " + std::to_string(most) + " requests a second");
    if (!rate_.hasRoom())
        throw Refused(
            reason, "more than " + std::to_string(member_.limits.membersPerSecond) + " requests a second of all desks");
    own.take();
    rate_.take();
}

/// Whether as many requests of a desk as may be are under way.
bool Trader::hasManyUnderWay(const Seat &seat) const {
    return underWay_.sizeOf(seat.settings.desk) >= seat.settings.limits.underWay;
}

bool Trader::takesMassCancel(int desk) const {
    const std::size_t count = open_.size() + underWay_.sizeOf(ALL_DESKS);
    return isReady_ && !hasManyUnderWay(seatOf(desk)) && !isStuck() && hasNumbersFor(count);
}

void Trader::needFewUnderWay(const Request &it) const {
    if (hasManyUnderWay(seatOf(it.desk)) || isStuck())
        throw Refused(it.isOrder() ? OTHER : EXCHANGE_OPTION,
                      std::to_string(underWay_.sizeOf(it.desk)) + " requests wait for the venue, which doesn't answer");
}

/// While the venue answers nothing for long its member is read all the same, for its heartbeats. Each desk waits for as
/// long by itself: what another one sends meanwhile keeps none of them waiting.
bool Trader::isBusy(int desk) const {
    const Seat &seat = seatOf(desk);
    const bool waits = hasManyUnderWay(seat) || isInDoubt(seat) || cancels_.isEndOwed();
    return isReady_ && waits && Bucket::Clock::now() - std::max(heardAt_, seat.fullAt) < PATIENCE;
}

void Trader::noteUnsent() {
    if (link_.unsent() < MOST_UNSENT / 2) fullSince_ = Bucket::Clock::time_point::max();
    else if (link_.unsent() >= MOST_UNSENT) fullSince_ = std::min(fullSince_, Bucket::Clock::now());
}

/// Whether the venue, as one of several, has taken too little for so long that nobody waits for it.
bool Trader::isStuck() const {
    return !venue_.letter.empty() && Bucket::Clock::now() - PATIENCE >= fullSince_;
}

void Trader::needRoom(const Request &it) {
    if (it.type == 'F') return;
    if (!hasRoom()) throw Refused(it.isOrder() ? OTHER : EXCHANGE_OPTION, "its disk is nearly full");
}

/// Cancels pass, whatever an operator has switched off.
void Trader::needAllowed(const Request &it) const {
    if (!it.mayRest()) return;
    if (switches_.isStopped()) throw Refused(CLOSED, "the operator has stopped this member");
    if (switches_.isHalted(it.symbol)) throw Refused(CLOSED, "the operator has halted " + it.symbol);
    if (cancels_.isEndOwed()) throw Refused(CLOSED, "the day has ended, and its orders aren't cancelled yet");
}

/// What a limit refuses has no number yet, so the venue never hears of it.
void Trader::needWithinLimits(const Request &it, long original) {
    Seat &seat = seatOf(it.desk);
    if (isInDoubt(seat) || isUnknownElsewhere(seat)) seat.limiter.refuseUnknown(it);
    seat.limiter.judge(it, original);
    const bool isTaken = it.isOrder() || (it.mayStay() && exposure_.isOf(original, it));  // The venue refuses others.
    if (isTaken && member_.limits.orders.selfTrade == SelfTrade::CancelOld) cancelCrossed(it);
}

/// Cancels the member's own orders that this one would trade with, of whichever desk. The venue takes these cancels
/// first, as it takes a member's requests in their order.
void Trader::cancelCrossed(const Request &it) {
    const char other = it.side == '1' ? '2' : '1';
    Cancels::Orders crossed;
    for (const long number : exposure_.crossedBy(it.symbol, it.side, it.price))
        crossed[number] = orderOf(it.symbol, other, "", names_.deskOf(number));
    cancels_.send(crossed);
}

/// Whether what is open has to be known, and the venue hasn't said what it has taken of before.
bool Trader::isInDoubt(const Seat &seat) const {
    return seat.limiter.limits().needsOpen() && !knowsAll();
}

/// Whether what is open at other venues has to be known, and isn't yet.
bool Trader::isUnknownElsewhere(const Seat &seat) const {
    const OrderLimits &limits = seat.limiter.limits();
    return (limits.openValue || limits.membersOpenValue) && !elsewhere_.isKnown();
}

/// What isn't sure counts by the most that it may be. What the journal tells while it is read is of before.
Money Trader::openValue(int desk) const {
    const Money now = isReady_ ? exposure_.value(desk) : 0;
    const auto before = valueBefore_.find(desk);
    return isSure() || before == valueBefore_.end() ? now : std::max(now, before->second);
}

std::size_t Trader::openOrders(int desk) const {
    const std::size_t rest = desk ? open_.sizeOf(desk) : open_.size();
    const std::size_t now = isReady_ ? rest + underWay_.ordersOf(desk) : 0;
    const auto before = ordersBefore_.find(desk);
    return isSure() || before == ordersBefore_.end() ? now : std::max(now, before->second);
}

/// Notes what is open, before the venue has to say anew what it has taken.
void Trader::noteOpen() {
    const auto note = [this](int desk) {
        valueBefore_[desk] = openValue(desk);
        ordersBefore_[desk] = openOrders(desk);
    };
    wasSure_ = isOpenKnown();
    note(0);
    for (const auto &it : seats_) note(it.first);
}

void Trader::needFewer(std::size_t count, int most, const std::string &who) {
    if (most && count >= static_cast<std::size_t>(most))
        throw Refused(OTHER, "more than " + std::to_string(most) + " open orders" + who);
}

/// Of a desk, and of the member's desks together.
void Trader::needFewOrders(const Request &it) const {
    const int most = seatOf(it.desk).settings.limits.openOrders, membersMost = member_.limits.membersOpenOrders;
    const auto there = [this](int desk) { return elsewhere_.openOrders(desk); };
    if (most) needFewer(open_.sizeOf(it.desk) + there(it.desk) + underWay_.ordersOf(it.desk), most, "");
    if (membersMost) needFewer(open_.size() + there(0) + underWay_.ordersOf(ALL_DESKS), membersMost, " of all desks");
}

void Trader::refuse(Seat &seat, const FIX::Message &message, const Request &it, const Refused &why) {
    counts_.refusals++;
    if (Orders::isName(it.name) && !isKnown(it.name, it.desk))
        names_.refuse(it.name, it.desk);  // Committed before it is told.
    const OpenOrder *const order = open_.find(names_.numberOf(it.original, it.desk));
    FIX::Message told = seat.reports.refusal(message, it, order, why.reason, why.what());
    send(seat, told);
}

void Trader::send(const Seat &seat, FIX::Message &message) {
    if (!seat.session->send(message)) throw std::runtime_error("the store of its session takes nothing in");
}

void Trader::beginRecovery() {
    isRecovering_ = true;
    isReady_ = false;
    readSince_ = std::min(readSince_, Bucket::Clock::now());
    hasSeenTold_ = !names_.state().told.report;
    lacking_ = 0;
    open_.clear();
    underWay_.clear();
    exposure_.clear();
    market_.clear();
    doubtTo_ = 0;
    cancels_.venueLost();
}

void Trader::recovered(const char *line, std::size_t size) {
    take(Fields(line, size, '|'));
}

/// The journal has the last report that the store has, or is another one, of which nothing may be told.
void Trader::needTold() const {
    if (!hasSeenTold_)
        throw VenueFault("its store has report " + std::to_string(names_.state().told.report) +
                         ", which the journal hasn't: that is another journal, or an older copy");
}

void Trader::endRecovery(const std::function<bool(int)> &hasClient) {
    needTold();
    if (lacking_)
        say(member_.name(), "the journal has " + std::to_string(lacking_) + " requests, up to the number " +
                                std::to_string(names_.last()) + ", whose names aren't here: of another client of its " +
                                "port, or lost. Nothing has to be done for them");
    // Cancels may have been lost, too. What the venue has told for the first time is of before: a client that is there
    // has sent nothing of it, and may have come while the venue was away.
    for (const auto &it : seats_) {
        Seat &seat = *it.second;
        const bool isAway = !hasClient(it.first) && seat.settings.limits.cancelOnDisconnect;
        if (isAway && !seat.record.state().isSpared) seat.isCancelDue = true;
        if (names_.own().isUnread() && seat.wasLeft) seat.isCancelDue = true;
    }
    names_.isRead();
    names_.own().isRead();
    names_.venueIsThere(true);
    cancels_.venueBack();
    isRecovering_ = hasFailed_ = false;
    isReady_ = true;
    takeHeld();
    if (!names_.unanswered(names_.last()).empty()) probe();
    else if (cancels_.isOwed()) probe();
    // Where nothing behind the cancels of a client that went is answered, they never came.
    const long settled = names_.state().settled;
    for (const auto &it : seats_)
        if (it.second->isCancelDue || settled < it.second->cancelledTo) cancelAll(*it.second);
}

void Trader::heard(const Fields &message) {
    if (!isReady_ || !held_.empty() || hasToWait(message)) {
        held_.push_back(message.bytes());
        heldBytes_ += message.size();
        return;
    }
    take(message);
}

void Trader::takeHeld() {
    while (isReady_ && !held_.empty()) {
        const std::string &bytes = held_.front();
        const Fields message(bytes.data(), bytes.size(), '\1');
        if (hasToWait(message)) return;
        take(message);
        heldBytes_ -= bytes.size();
        held_.pop_front();
    }
}

/// Whether a message of the venue is for a desk that is being told again what it wasn't sent: that comes first. Behind
/// the answer to a probe, or a Reject, any desk may be told that a request is lost.
bool Trader::hasToWait(const Fields &message) {
    const bool isAnyOwing = std::any_of(seats_.begin(), seats_.end(), [](const auto &it) { return it.second->owes(); });
    if (!isAnyOwing) return false;
    const char type = message.byte(35);
    const long number = message.number(11);
    if (type == '8' || type == '9')
        return seatOf(names_.deskOf(number)).owes() || names_.is(number, Names::Kind::Probe);
    return type == '3';
}

/// A venue that doesn't answer for long isn't waited for, nor one whose reading takes long.
bool Trader::isReadFirst() const {
    const bool isComing = link_.state() == VenueLink::State::LoggingOn && link_.waitsFor().empty();
    const bool isLong = Bucket::Clock::now() - LONG_READING >= readSince_;
    return (isRecovering_ || isComing) && names_.own().isUnread() && !hasFailed_ && !isLong;
}

bool Trader::holdsTooMuch() const {
    return heldBytes_ > MOST_HELD;
}

/// Takes in a report of the venue: one that the journal told before comes a second time, and changes nothing more.
void Trader::take(const Fields &report) {
    const char type = report.byte(35);
    if (type == '3' && !isRecovering_) rejected(report);
    if (type != '8' && type != '9') return;
    if (!isRecovering_) needOwn(report);
    else if (isOfAnother(report)) return;
    const long number = report.number(11);
    const bool isNamed = isRecovering_ ? names_.has(number) : number <= names_.last();
    if (!isNamed) lacks(number);
    const bool isBehind = isBehindTold(report);
    const int desk = names_.deskOf(number), owner = names_.ownerOf(number);
    if (underWay_.end(number)) heardAt_ = Bucket::Clock::now();
    if (type == '8' && (isBehind || isRecovering_)) open_.take(report, desk, owner);
    if (isBehind || isRecovering_) exposure_.take(report, owner);
    market_.take(report);
    if (isBehind) tell(report, seatOf(desk));
    if (isNamed) names_.answered(number);  // Behind what a probe's answer tells of those before it.
    if (isReady_) sweepOwed();
    counts_.openOrders = static_cast<long>(open_.size());
}

/// Each venue knows its symbols and, since its journal has been read, no numbers as great as those of what is sent to
/// it. One for which that doesn't hold is another one, whose reports have other numbers.
void Trader::needOwn(const Fields &report) const {
    if (venue_.letter.empty()) return;
    const bool isExecution = report.byte(35) == '8';
    const long reason = report.number(isExecution ? 103 : 102);
    const auto fail = [this](const std::string &why) {
        throw VenueFault("the venue at its port " + why + ": VenuePort" + venue_.letter + " is another one's");
    };
    if (reason == DUPLICATE) fail("has had a request of the number " + std::to_string(report.number(11)));
    if (!isExecution) return;
    if (reason == UNKNOWN_SYMBOL) fail("doesn't know " + report.text(55));
    if (!venue_.trades(report.text(55))) fail("tells of " + report.text(55));
}

/// Whether the journal tells this of a request that was meant for another venue, as one has it whose port was taken for
/// another one's: of an order of a symbol that this venue doesn't have, or of a cancel by the number of a request that
/// has been answered. Nothing of that is told.
bool Trader::isOfAnother(const Fields &report) const {
    if (venue_.letter.empty()) return false;
    if (report.byte(35) == '8') return !venue_.trades(report.text(55));
    const long number = report.number(11);
    return number > names_.state().told.reject && number <= names_.state().settled;
}

/// The journal has a request that no name is of. A session that may be an older copy is told all behind it once more.
void Trader::lacks(long number) {
    if (number <= names_.last()) return;  // It was noted before.
    if (names_.own().isUnread() && record_.stepsBack())
        throw std::runtime_error("the journal has requests that its record lacks: it begins anew");
    names_.note(number);
    lacking_++;
}

/// Whether this report stands behind what the store has. All that the journal has in front of the last one were told.
bool Trader::isBehindTold(const Fields &report) {
    const Told &told = names_.state().told;
    if (report.byte(35) == '9') return hasSeenTold_ && report.number(11) > told.reject;
    const long number = report.number(17);
    if (number == told.report) hasSeenTold_ = true;
    if (number > told.report) needTold();
    return number > told.report;
}

void Trader::tell(const Fields &report, Seat &seat) {
    const bool isExecution = report.byte(35) == '8';
    const long number = report.number(isExecution ? 17 : 11);
    if (!isExecution && names_.is(number, Names::Kind::Probe)) {
        tellLost(number);
    } else if (isExecution || !names_.is(number, Names::Kind::Expiry)) {  // Else its order had an end of its own.
        seat.teller.tell(report.byte(35), seat.reports.of(report));
        counts_.reports++;
    }
    Told &told = names_.change().told;
    (isExecution ? told.report : told.reject) = number;
    counts_.lastReport = told.report;
}

/// Tells the member of each request up to this number that no report answers: it never reached the venue.
void Trader::tellLost(long upTo) {
    for (const long number : names_.unanswered(upTo)) tellLost(number, "this request never reached the venue");
}

void Trader::tellLost(long number, const std::string &why) {
    const Seat &seat = seatOf(names_.deskOf(number));
    FIX::Message message = seat.reports.lost(number, why);
    send(seat, message);
    say(seat.settings.deskName(), why + ": " + shown(names_.nameOf(number)));
}

/// The venue rejects a message where it isn't of its profile, as a market order is where its journal is of version 1.
void Trader::rejected(const Fields &reject) {
    for (const auto &it : underWay_.all()) {
        if (it.second.sequence != reject.number(45)) continue;
        const long number = it.first;
        tellLost(number,
                 "the venue rejected field " + reject.text(371) + " of this request, by reason " + reject.text(373));
        names_.strike(number);
        exposure_.dropped(number);
        underWay_.end(number);
        return;
    }
}

/// Asks the venue what it has answered. Where it takes no greater number nothing tells that.
void Trader::probe() {
    if (!hasNumber()) return;
    const long number = names_.add(PROBE, Names::Kind::Probe);
    const std::string time = timeNow();
    link_.send("F", probeFor(venue_.symbols[0], number, time), time);
    cancels_.probed(number);
    doubtTo_ = number;
    heardAt_ = Bucket::Clock::now();
}

void Trader::left(int desk) {
    Seat &seat = seatOf(desk);
    if (!seat.settings.limits.cancelOnDisconnect || seat.record.state().isSpared) return;
    seat.isCancelDue = true;
    if (isReady_) cancelAll(seat);
}

void Trader::isBack(int desk) {
    SessionRecord &record = seatOf(desk).record;
    if (record.state().isSpared) record.change().isSpared = false;
}

/// All that rest or may come to, as far as the venue has told.
std::map<long, OpenOrder> Trader::orders() const {
    std::map<long, OpenOrder> orders = open_.all();
    for (const auto &it : underWay_.all())
        if (it.second.type != 'F')
            orders[it.first] = orderOf(it.second.symbol, it.second.side, it.second.time, it.second.desk);
    return orders;
}

/// Those of them that are Day: so is each that isn't known to be asked for otherwise. What a wrong clock has sent in
/// the days to come counts as sent before all ends.
std::map<long, OpenOrder> Trader::dayOrders() {
    const std::string latest = timeOf(std::time(nullptr) + Schedule::DAY);
    std::map<long, OpenOrder> all = orders();
    for (auto it = all.begin(); it != all.end();) {
        if (it->second.sent > latest) it->second.sent.clear();
        it = names_.is(it->first, Names::Kind::GoodTillCancel) ? all.erase(it) : std::next(it);
    }
    return all;
}

/// Cancels all orders of a desk whose client has gone. Those of a desk that the member has no more stay, though the
/// first one is told of them.
void Trader::cancelAll(Seat &seat) {
    std::map<long, OpenOrder> all = orders();
    for (auto it = all.begin(); it != all.end();)
        it = it->second.owner == seat.settings.desk ? std::next(it) : all.erase(it);
    const std::size_t count = cancels_.send(all), left = hasNumber() ? 0 : all.size() - count;
    const std::string who = seat.settings.deskName();
    if (count) say(who, "cancels " + std::to_string(count) + " orders: the member is away");
    if (left)
        say(who, std::to_string(left) + " orders stay, though the member is away: the venue takes no greater number");
    seat.isCancelDue = false;
    if (!all.empty()) seat.cancelledTo = names_.last();
}

void Trader::needNumbers() const {
    needNumbersFor(orders().size());
}

bool Trader::hasNumbersFor(std::size_t count) const {
    return names_.last() + static_cast<long>(count) + BESIDE <= Names::GREATEST;
}

void Trader::needNumbersFor(std::size_t count) const {
    if (!hasNumbersFor(count)) throw Refused(OTHER, "the venue takes no greater number");
}

/// Sends a cancel for each order of a sweep: how many.
std::size_t Trader::sweep(Sweep &it) {
    const std::map<long, OpenOrder> all = it.isOfDay() ? dayOrders() : orders();
    needNumbersFor(all.size());
    return cancels_.begin(it, all);
}

Sweep Trader::cancelEach() {
    Sweep it;
    sweep(it);
    return it;
}

/// Tells the member how many cancels go to the venue for its mass cancel: each is answered by a report of its own.
void Trader::massCancel(Seat &seat, const FIX::Message &message, const Request &it) {
    Sweep those{it.desk, it.symbol, it.side, it.name, ""};
    std::string words;
    std::size_t count = sweep(those);
    if (it.symbol.empty()) count += elsewhere_.sweep(those, words);
    const long number = names_.add(it.name, Names::Kind::MassCancel, it.desk);
    FIX::Message told = seat.reports.massCancelled(message, number, count);
    if (!words.empty()) told.setField(FIX::FIELD::Text, SAID_BY_EDGE + words);
    send(seat, told);
}

std::size_t Trader::sweepAlong(const Sweep &it, std::string &words) {
    const auto add = [&](const std::string &what) { words += (words.empty() ? "" : "; ") + venue_.letter + what; };
    Sweep own = it;
    own.upTo = own.known = own.row = own.last = 0;
    if (!isReady_) {
        cancels_.owe(own);
        add(" isn't there: what rests there is cancelled once it is");
        return 0;
    }
    try {
        return sweep(own);
    } catch (const Refused &why) {
        add(std::string(" cancels nothing: ") + why.what());
        return 0;
    }
}

Sweep Trader::owe() {
    return cancels_.owe(Sweep());
}

/// Sends the cancels of a sweep that nobody waits for, and says so.
void Trader::carryOut(Sweep &it) {
    try {
        const std::string count = std::to_string(sweep(it));
        if (count == "0") return;
        say(member_.name(), it.isOfDay() ? "the day has ended: cancels " + count + " orders that are Day"
                                         : "cancels " + count + " orders, as was asked for before");
    } catch (const Refused &why) {
        say(member_.name(), std::string("orders stay that were to be cancelled: ") + why.what());
    }
}

/// Sends anew what is owed of sweeps, where the venue has answered all that was sent before.
void Trader::sweepOwed() {
    cancels_.answered(names_.state().settled);
    for (Sweep &it : cancels_.takeOwed(names_.state().settled)) carryOut(it);
}

void Trader::endDay(const std::string &end) {
    Sweep it;
    it.end = end;
    carryOut(it);
}

std::string Trader::restsOf(const Sweep &it) {
    if (!venue_.letter.empty() && names_.own().isUnread()) return "what rests there isn't known";
    std::size_t count = 0;
    std::string names;
    for (const auto &order : orders()) {
        if (!it.takes(order.first, order.second)) continue;
        if (count++ >= SHOWN) continue;
        const bool isOfFirst = order.second.desk == FIRST_DESK;
        names +=
            " " + names_.nameOf(order.first) + (isOfFirst ? "" : " of " + deskName(member_.name(), order.second.desk));
    }
    return std::to_string(count) + " of its orders may rest" + (count ? ":" + names : "") +
           (count > SHOWN ? " .." : "");
}

std::string Trader::namesFrom(long from) {
    return toldNames([this](int desk) { return seatOf(desk).settings.session.getTargetCompID().getValue(); }, from,
                     names_);
}

void Trader::tidy() {
    if (!isReady_) return;
    names_.drop([this](long number) { return open_.find(number); });
    cancels_.tidy();
}

void Trader::venueLost() {
    noteOpen();
    names_.venueIsThere(false);
    isReady_ = isRecovering_ = false;
    held_.clear();
    heldBytes_ = 0;
}

}
