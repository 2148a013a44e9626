#include "member_session.h"

#include <algorithm>
#include <stdexcept>
#include <utility>

#include "lines.h"
#include "sequence.h"

namespace edge {

namespace {

constexpr std::size_t MOST_HANDED = 16;
constexpr int MOST_LOOKS = 16;              // At a client, for the end of what it sent, before another one is let go.
constexpr std::size_t MOST_UNSENT = 65536;  // While more waits for a client, or more than a part of what may wait,
constexpr std::size_t PART_OF_UNSENT = 8;   // it is told nothing of what changes all the time.
constexpr std::chrono::milliseconds WHOLE(10);  // Behind the last line of a command so much is silence.

}

MemberSession::MemberSession(const Settings &settings, Record &record, Traders &traders, const Shelf &books,
                             Turning &thread)
    : member_(settings.member),
      traders_(traders),
      thread_(thread),
      day_(settings.hours, settings.dayEnds, settings.member, record),
      answers_(settings, record, traders, books),
      logons_(settings.member, traders),
      conversation_(settings.member, logons_, traders, day_, answers_),
      numbering_(settings.member, record, conversation_, day_) {}

void MemberSession::attach(FIX::Session &session, Store &store, Log &log) {
    session_ = &session;
    store_ = &store;
    log_ = &log;
    traders_.attach(desk(), session, day_);
    day_.attach(session, store);
    answers_.attach(session);
    conversation_.attach(session, store);
    numbering_.attach(session);
}

/// The library wants no exception out of a callback.
void MemberSession::asked(const FIX::Message &message) {
    const std::string &type = message.getHeader().getField(FIX::FIELD::MsgType);
    try {
        if (!answers_.asked(type, message)) traders_.asked(desk(), message);
    } catch (const std::exception &why) {
        fault_ = why.what();
    }
}

void MemberSession::loggedOn() {
    isLoggedOn_ = true;
    traders_.isBack(desk());
}

void MemberSession::hand(Descriptor socket, const std::string &bytes, const std::string &from) {
    bool hasRoom;
    {
        const std::lock_guard<std::mutex> lock(mutex_);
        hasRoom = handed_.size() < MOST_HANDED;
        if (hasRoom) handed_.push_back(Handed{std::move(socket), bytes, from});
    }
    if (!hasRoom) say(member_.deskName(), "a client from " + from + " is let go: too many wait to be looked at");
    thread_.wake();
}

void MemberSession::readStore() {
    session_->refresh();
    traders_.attach(desk(), *session_, day_);
    day_.attach(*session_, *store_);
}

void MemberSession::lookAtDay() {
    if (!day_.isOver()) return;
    if (conversation_.isOn()) {
        traders_.spare(desk());
        conversation_.logOut("the day ends");
        endClient("its day ends");
        if (day_.owes()) return;
    }
    day_.begin();
}

void MemberSession::read() {
    if (conversation_.isHeldUp()) endWhere(conversation_.passMessages());
    if (hasClient_ && conversation_.isOn() && !conversation_.isHeldUp()) endWhere(conversation_.read());
    conversation_.sendAgain();
    takeHanded();  // Behind the end of a client that has gone to come back.
}

void MemberSession::takeHanded() {
    std::vector<Handed> came;
    {
        const std::lock_guard<std::mutex> lock(mutex_);
        came.swap(handed_);
    }
    for (int looks = 0; !came.empty() && looks < MOST_LOOKS; looks++) {
        if (conversation_.isEnding()) endClient(conversation_.endWords());
        if (!conversation_.isRead()) break;
        // A client that comes back at once has left, and the end of what it sent lies unread.
        endWhere(conversation_.read());
    }
    // A client that isn't read now, and has left, makes room for who comes back: what it sent last comes again.
    if (!came.empty() && conversation_.hasLeft()) endClient("the client closed the connection");
    for (Handed &it : came) admit(it);
}

/// Lets a client be this desk's, unless there is one.
void MemberSession::admit(Handed &it) {
    if (conversation_.isOn()) {
        say(member_.deskName(),
            "a second client from " + it.from + " is let go: one is logged on, from " + conversation_.clientsAddress());
        return;
    }
    if (!thread_.isStoreRead()) {
        say(member_.deskName(),
            "a client from " + it.from + " is let go: the store can't be read, so nothing can be answered");
        return;
    }
    hasClient_ = false;
    endWhere(conversation_.begin(std::move(it.socket), it.bytes, it.from));
}

/// Ends the client's connection where there is a reason.
void MemberSession::endWhere(const std::string &why) {
    if (!why.empty()) endClient(why);
}

void MemberSession::endClient(const std::string &why) {
    say(member_.deskName(), "the client from " + conversation_.clientsAddress() + " is gone: " + why);
    session_->disconnect();
    thread_.keep();
    conversation_.flush();
    day_.left();
    if (thread_.isStoreRead()) day_.keep();
    conversation_.end();
    hasClient_ = false;
    traders_.left(desk());
    conversation_.goUp();
}

void MemberSession::drop() {
    fault_.clear();
    conversation_.drop();
    day_.drop();
}

bool MemberSession::mayAnswer() {
    return !answers_.isIdle() && conversation_.isOn() && traders_.isReady() && session_->isLoggedOn() &&
           conversation_.goesOn() && hasRoomForAnswers() && conversation_.mayBeTold();
}

bool MemberSession::hasRoomForAnswers() const {
    return conversation_.unsent() <= std::min(MOST_UNSENT, member_.limits.unsentBytes / PART_OF_UNSENT);
}

bool MemberSession::hasNumbers() const {
    return session_->getExpectedSenderNum() < MOST_NUMBER;
}

void MemberSession::answer(bool isMarketThere) {
    if (!mayAnswer()) return;
    const long next = session_->getExpectedSenderNum();
    const long looked = answers_.tell([this] { return hasRoomForAnswers(); }, isMarketThere && hasNumbers());
    conversation_.told(looked + session_->getExpectedSenderNum() - next);
}

std::chrono::milliseconds MemberSession::answersPause(std::chrono::milliseconds most, bool isSettled,
                                                      bool isMarketThere) {
    if (!mayAnswer()) return most;
    return answers_.pause(isSettled || !answers_.open() ? most : std::min(most, WHOLE), isMarketThere && hasNumbers());
}

void MemberSession::tick() {
    if (conversation_.isOn()) session_->next();
    day_.keep();
    unsent_ = conversation_.unsent();
}

}
