#include "member.h"

#include <poll.h>
#include <sys/eventfd.h>

#include <algorithm>
#include <cstdint>
#include <ctime>
#include <stdexcept>

#include "hours.h"
#include "lines.h"

namespace edge {

namespace {

constexpr std::chrono::milliseconds TICK(500), AGAIN(200), SOON(5), REST(1000);
constexpr std::chrono::milliseconds QUIET(2);  // So long nothing has come in a quiet moment.

/// Whether a desk may ask for the market.
bool isMarketOpen(const Settings &settings) {
    const std::vector<const MemberSettings *> all = settings.sessions();
    return std::any_of(all.begin(), all.end(), [](const MemberSettings *it) { return it->market.isOpen; });
}

/// Does this with what there is for each venue. What can't be used rests alone, where there are others.
template <class Part, class Act>
void each(std::list<Part> &parts, const Act &act) {
    for (Part &it : parts) {
        try {
            act(it);
        } catch (const VenueFault &why) {
            if (parts.size() == 1) throw;
            it.restAfter(why.what());
        }
    }
}

}

Member::Member(const Settings &settings, Record &record)
    : settings_(settings),
      member_(settings.member),
      record_(record),
      shared_(settings, record),
      traders_(shared_),
      operators_(settings.member, traders_, sessions_),
      bell_(::eventfd(0, EFD_NONBLOCK | EFD_CLOEXEC)) {
    Turning &thread = *this;
    Hosting &host = *this;
    for (std::size_t at = 0; at < settings.venues.size(); at++) {
        venues_.emplace_back(settings, at, record, shared_, isMarketOpen(settings), host);
        Venue &it = venues_.back();
        traders_.add(it.trader());
        books_.add(it.place().symbols, it.books());
        if (!member_.isOfCopies()) continue;
        turns_.emplace_back(settings.ofAll.edge);
        copies_.emplace_back(settings, at, record, it.trader().teller(), turns_.back());
    }
    traders_.join();
    sessions_.emplace_back(settings, record, traders_, books_, thread);
    for (const Settings &it : settings.desks) sessions_.emplace_back(it, record, traders_, books_, thread);
}

Member::~Member() {
    stop();
}

MemberSession &Member::session(int desk) {
    return *std::find_if(sessions_.begin(), sessions_.end(),
                         [desk](const MemberSession &it) { return it.desk() == desk; });
}

void Member::attached() {
    isStoreRead_ = storeFault().empty();
    if (isStoreRead_)
        for (Copies &it : copies_) it.attach();
    operators_.attach(first().log());
}

void Member::start() {
    thread_ = std::thread([this] { run(); });
}

void Member::stop() {
    isStopping_ = true;
    wake();
    if (thread_.joinable()) thread_.join();
}

void Member::wake() {
    const std::uint64_t one = 1;
    if (::write(bell_.get(), &one, sizeof one) < 0) return;  // It rings already.
}

/// What keeps the store of a session from being used, or nothing.
std::string Member::storeFault() const {
    for (const MemberSession &it : sessions_)
        if (!it.storeFault().empty()) return it.storeFault();
    return "";
}

/// Whether a desk has a client.
bool Member::isAnyOn() const {
    return std::any_of(sessions_.begin(), sessions_.end(), [](const MemberSession &it) { return it.isOn(); });
}

void Member::ask(Asked asked) {
    {
        const std::lock_guard<std::mutex> lock(mutex_);
        asked_.push_back(std::move(asked));
    }
    wake();
}

void Member::actAlone(Asked asked) {
    if (!isStoreRead_) throw std::runtime_error(storeFault());
    const bool isQuestion = asked.command.isQuestion();
    lookAtDay();
    for (MemberSession &it : sessions_)
        for (; !isQuestion && it.owes(); keep()) it.tellOwed();
    operators_.take(std::move(asked));
    if (!isQuestion) {
        keep();
        record_.finish();
    }
    operators_.release();
    for (MemberSession &it : sessions_) it.log().flush();
}

void Member::run() {
    while (!isStopping_ || isAnyOn()) {
        try {
            if (isStopping_ && isAnyOn()) endClients("the edge stops");
            else turn();
        } catch (const std::exception &why) {
            const std::string fault = storeFault();
            restAfter(fault.empty() ? why.what() : fault);
        }
    }
    try {
        keep();
        operators_.end();
        for (Venue &it : venues_) it.end();
        record_.finish();
    } catch (const std::exception &why) {
        say(member_.name(), why.what());
    }
    for (Venue &it : venues_) it.turnBack();
    for (ReplayTurn &it : turns_) it.giveBack();
}

Serving Member::state() const {
    if (member_.isOfCopies()) return state_;
    for (const Serving wanted : {Serving::Serves, Serving::ReadsJournal, Serving::WaitsForVenue})
        for (const Venue &it : venues_)
            if (it.state() == wanted) return wanted;
    return Serving::IsNotServed;
}

/// Commits what was written since the last time: only behind that may go out what rests on it. Where a part of that
/// couldn't be written, nothing is committed.
void Member::keep() {
    for (const MemberSession &it : sessions_)
        if (!it.fault().empty()) throw std::runtime_error(it.fault());
    if (!traders_.fault().empty()) throw std::runtime_error(traders_.fault());
    if (isStoreRead_ && !storeFault().empty()) throw std::runtime_error(storeFault());
    if (record_.isChanging())  // Else the next look at the clock does.
        for (MemberSession &it : sessions_) it.keepDay();
    record_.commit();
    for (MemberSession &it : sessions_) it.committed();
    for (Venue &it : venues_) it.release();
    for (MemberSession &it : sessions_) it.release();
    operators_.release();
}

/// Something that this member's thread can't go on from: all connections end, and it begins anew from disk and journal.
void Member::restAfter(const std::string &why) {
    if (saidOfFault_ != why) say(member_.name(), "isn't served: " + why);
    saidOfFault_ = why;
    state_ = Serving::IsNotServed;
    setResting(true);
    for (Venue &it : venues_) it.rest();
    traders_.clearFault();
    connectAt_ = restsUntil_ = Clock::now() + REST;
    isStoreRead_ = false;
    record_.close();  // What this turn wrote is lost, and so is what it sent.
    for (MemberSession &it : sessions_) it.drop();
    for (Copies &it : copies_) it.drop();
    operators_.drop(why);
    try {
        endClients("it isn't served");
        readStore();
    } catch (const std::exception &) {
        // It is tried again before the next connection to the venue, and what is wrong is said then.
    }
}

/// Ends the connections of all clients.
void Member::endClients(const std::string &why) {
    for (MemberSession &it : sessions_)
        if (it.isOn()) it.endClient(why);
}

/// Whether the member has rested for a fault, and hasn't been served since: its Logons are refused in words.
void Member::setResting(bool rests) {
    for (MemberSession &it : sessions_) it.logons().rests(rests);
}

void Member::readStore() {
    for (MemberSession &it : sessions_) it.readStore();
    for (Copies &it : copies_) it.attach();
    isStoreRead_ = true;
}

void Member::turn() {
    drive();
    wait();
    lookAtDay();
    takeCommands();  // Behind the end of a day, and in front of what the client sends.
    each(venues_, [](Venue &it) { it.read(); });
    for (MemberSession &it : sessions_) it.read();
    tick();
    tellAgain();
    answer();
    if (!copies_.empty() && isStoreRead_) tellCopies();
    if (isStoreRead_) operators_.look();
    keep();
    flush();
    if (!rests() && record_.isVeryUntidy(traders_.isSweeping())) record_.tidy();
}

/// Whether what the edge does by itself waits a little: a disk that is full would only fail again, at once.
bool Member::rests() const {
    return !isStoreRead_ || Clock::now() < restsUntil_;
}

/// Ends the member's day where its hours have ended since the last look: before this turn tells anything.
void Member::lookAtDay() {
    if (rests()) return;
    for (MemberSession &it : sessions_) it.lookAtDay();
    endOrders();
}

/// Ends what is Day where a day has ended, at each venue that is there, and before the client is read.
void Member::endOrders() {
    for (Venue &it : venues_) endOrdersOf(it.trader());
}

void Member::endOrdersOf(Trader &trader) {
    if (!trader.isReady()) return;
    const std::string end = first().endOfOrders(trader.names().own());
    if (!end.empty()) trader.endDay(end);
}

void Member::serves() {
    setResting(false);
    saidOfFault_.clear();
}

/// Takes the commands one by one: what fails in one of them leaves the others there.
void Member::takeCommands() {
    for (Asked it; isAsked(it);) {
        if (isStoreRead_) operators_.take(std::move(it));
        else operators_.refuse(it, "it isn't served: " + saidOfFault_);
    }
}

/// Takes the next command, if there is one.
bool Member::isAsked(Asked &it) {
    const std::lock_guard<std::mutex> lock(mutex_);
    if (asked_.empty()) return false;
    it = std::move(asked_.front());
    asked_.pop_front();
    return true;
}

/// Whether the record wants a quiet moment, and nothing is under way that would come late by that: an answer of the
/// venue is told first.
bool Member::maySettle() const {
    return record_.isUntidy() && !rests() && !traders_.isSweeping() && !traders_.isWaiting();
}

/// How long nothing may come before something is due by itself.
std::chrono::milliseconds Member::longestPause() {
    if (!copies_.empty()) return isStoreRead_ ? copiesPause() : AGAIN / 4;
    if (isTellingAgain()) return rests() ? AGAIN / 4 : std::chrono::milliseconds(0);
    const bool isAnyDriven = std::any_of(venues_.begin(), venues_.end(), [](const Venue &it) { return it.isDriven(); });
    return answersPause(isAnyDriven ? AGAIN / 4 : TICK);
}

/// Waits until something can be done, and notes what. What the last turn has sent is on its way: now its lines are
/// written, and in a quiet moment the record is tidied up.
void Member::wait() {
    for (MemberSession &it : sessions_) it.log().flush();
    std::vector<pollfd> all{{bell_.get(), POLLIN, 0}};
    for (const Venue &it : venues_) it.watch(all);
    const bool isReadingOver =
        std::any_of(venues_.begin(), venues_.end(), [](const Venue &it) { return it.isReadingOver(); });
    for (MemberSession &it : sessions_) all.push_back(it.watched());
    for (const Copies &it : copies_) {
        const Copies::Polled those = it.watched();
        all.insert(all.end(), those.begin(), those.end());
    }
    auto pause = isReadingOver ? SOON : longestPause();
    for (MemberSession &it : sessions_) pause = it.pause(pause);
    const auto comes = [&all](std::chrono::milliseconds within) {
        return ::poll(all.data(), all.size(), static_cast<int>(within.count())) > 0;
    };
    if (!maySettle() || !comes(std::min(QUIET, pause))) {
        if (maySettle()) record_.tidy();
        comes(pause);
    }
    note(all);
}

/// Notes what has come.
void Member::note(const std::vector<pollfd> &all) {
    std::size_t at = 1;
    for (Venue &it : venues_) {
        it.came(&all[at]);
        at += Venue::WATCHED;
    }
    for (MemberSession &it : sessions_) it.came(all[at++]);
    std::uint64_t rings;
    if (all[0].revents && ::read(bell_.get(), &rings, sizeof rings) < 0) return;  // It has been read already.
}

void Member::drive() {
    if (!copies_.empty()) {
        driveCopies();
        return;
    }
    if (!isStoreRead_ && Clock::now() >= connectAt_) readStore();
    if (isStoreRead_) each(venues_, [](Venue &it) { it.drive(); });
}

/// Begins to read what is to be copied, behind what was told. It is served once the journal is known to have that, and
/// what its engine wasn't sent in the numbers of before is told again.
void Member::driveCopies() {
    if (Clock::now() < connectAt_) return;
    if (!isStoreRead_) readStore();
    const bool served = state_ == Serving::Serves;
    bool reads = false, isWhole = false;
    each(copies_, [&](Copies &it) {
        reads = it.drive() || reads;
        isWhole = it.isWhole() || isWhole;
    });
    if (isWhole) state_ = first().owes() ? Serving::TellsAgain : Serving::Serves;
    else if (reads) state_ = Serving::ReadsJournal;
    if (served || state_ != Serving::Serves) return;
    setResting(false);
    first().logons().copiesAreThere();
    saidOfFault_.clear();
    std::string last;
    for (const Copies &it : copies_) last += (last.empty() ? "" : ", ") + it.lastWord();
    say(member_.name(), "serves, behind report " + last);
}

/// Whether a desk is being told again what it wasn't sent.
bool Member::isTellingAgain() const {
    return std::any_of(sessions_.begin(), sessions_.end(), [](const MemberSession &it) { return it.owes(); });
}

/// Tells a desk a piece of what it wasn't sent, one desk at a time, so that others wait for no more than that. What the
/// venue tells such a desk meanwhile comes behind all of that. Copies have a way of their own.
void Member::tellAgain() {
    if (!copies_.empty() || rests()) return;
    const auto owing =
        std::find_if(sessions_.begin(), sessions_.end(), [](const MemberSession &it) { return it.owes(); });
    if (owing != sessions_.end()) owing->tellOwed();
    each(venues_, [](Venue &it) { it.trader().takeHeld(); });
}

/// Tells copies: to who is away as much as there is, and to who is there as much as is taken. What is told again comes
/// first.
void Member::tellCopies() {
    each(copies_, [](Copies &it) { it.read(); });
    if (first().owes() && copies_.front().hasDisk(true)) first().tellOwed();
    for (Copies &it : copies_) it.tell([this] { return mayTellCopies(); });
}

/// Whether copies may be told: not in front of what is told again, and as a client of them takes.
bool Member::mayTellCopies() const {
    const MemberSession &it = sessions_.front();
    return !it.owes() && (!it.isOn() || it.hasRoomForAnswers());
}

std::chrono::milliseconds Member::copiesPause() {
    if (first().owes()) return copies_.front().hasDisk(true) ? std::chrono::milliseconds(0) : AGAIN / 4;
    auto pause = TICK;
    for (const Copies &it : copies_) pause = it.pause(pause, mayTellCopies());
    return pause;
}

void Member::answer() {
    for (Venue &it : venues_) it.lookAtMarket();
    for (MemberSession &it : sessions_) it.answer(books_.isAnyThere());
}

/// How long of this time it may be until a client is to be told something.
std::chrono::milliseconds Member::answersPause(std::chrono::milliseconds most) {
    for (Venue &it : venues_) it.noteMarket();
    for (MemberSession &it : sessions_)
        if (it.mayAnswer()) most = it.answersPause(most, books_.isSettled(), books_.isAnyThere());
    return most;
}

/// Lets the sessions look at the clock, for heartbeats.
void Member::tick() {
    if (Clock::now() < tickAt_) return;
    tickAt_ = Clock::now() + TICK;
    for (MemberSession &it : sessions_) it.tick();
    for (Venue &it : venues_) it.tick();
    sayCounts();
}

/// Writes to both sides what there is, and ends what has to end.
void Member::flush() {
    for (Venue &it : venues_) it.flush();
    for (MemberSession &it : sessions_) it.flush();
}

}
