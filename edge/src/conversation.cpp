#include "conversation.h"

#include <quickfix/FixFieldNumbers.h>

#include <algorithm>
#include <stdexcept>
#include <utility>

#include "lines.h"
#include "message_types.h"
#include "reports.h"
#include "sequence.h"

namespace edge {

namespace {

/// The number of at most nine digits that stands behind this text, which begins at this place, or 0.
long numberBehind(const std::string &front, const std::string &text, std::size_t &place) {
    if (text.compare(place, front.size(), front)) return 0;
    const std::size_t first = place + front.size();
    place = std::min(text.find_first_not_of("0123456789", first), text.size());
    return place > first && place - first <= 9 ? std::stol(text.substr(first, place - first)) : 0;
}

/// The number that an engine expects which ends its session since ours, this one or one behind it, is too low, in the
/// words of most engines; or 0.
long expectedBy(const std::string &text, long ours) {
    std::size_t place = 0;
    const long expected = numberBehind("MsgSeqNum too low, expecting ", text, place);
    const long came = expected ? numberBehind(" but received ", text, place) : 0;
    return ours && ours <= came && came < expected ? expected : 0;
}

std::string tooLow(long expected, long number) {
    return "MsgSeqNum too low, expecting " + std::to_string(expected) + " but received " + std::to_string(number);
}

}

Conversation::Conversation(const MemberSettings &member, const Logons &logons, Traders &traders, Day &day,
                           Answers &answers)
    : member_(member),
      logons_(logons),
      traders_(traders),
      day_(day),
      answers_(answers),
      intake_(member.limits.readMessages, member.limits.readBytes) {}

void Conversation::attach(FIX::Session &session, Store &store) {
    session_ = &session;
    store_ = &store;
}

std::string Conversation::begin(Descriptor socket, const std::string &bytes, const std::string &from) {
    clientsAddress_ = from;
    client_.reset(new Connection(std::move(socket), bytes, member_.limits.messageBytes, member_.limits.unsentBytes,
                                 [this](const std::string &message) { return writing(message); }));
    session_->setResponder(client_.get());
    traders_.sendsTo(member_.desk, client_.get());
    gaps_.clear();
    garbled_.clear();
    answer_ = wanted_ = 0;
    say(member_.deskName(), "a client from " + clientsAddress_);
    return passMessages();
}

void Conversation::end() {
    traders_.sendsTo(member_.desk, nullptr);
    client_.reset();
    resends_.clear();
    answers_.end();
    isHeldUp_ = false;
}

void Conversation::goUp() {
    const long number = wanted_;
    wanted_ = 0;
    if (number) intake_.sentAgain(day_.goUpTo(number));
}

void Conversation::release() {
    if (client_) client_->release();
}

void Conversation::drop() {
    if (client_) client_->drop();
    wanted_ = 0;
}

std::string Conversation::flush() {
    if (!client_) return "";
    const bool stands = client_->flush();
    day_.written(client_->unsent());
    if (client_->isEnding()) return endWords();
    if (!stands) return "nothing can be written to it";
    return client_->isOverfull() ? "it takes too few of its reports, which are in its store" : "";
}

std::string Conversation::endWords() const {
    return "its session has ended" + (farewell_.empty() ? "" : ": " + shown(farewell_));
}

pollfd Conversation::watched() {
    if (!client_) return {-1, 0, 0};
    const int reads = isRead() ? POLLIN : 0, writes = client_->isWriting() ? POLLOUT : 0;
    return {client_->fd(), static_cast<short>(reads | writes), 0};
}

std::chrono::milliseconds Conversation::pause(std::chrono::milliseconds most) {
    if (!client_ || !client_->takesMore()) return most;
    const auto room = intake_.pause();
    const bool waits = room.count() || resends_.isDue() || (isHeldUp_ && mayRead());
    return waits ? std::min(most, room) : most;
}

bool Conversation::hasLeft() const {
    pollfd it{client_ ? client_->fd() : -1, POLLRDHUP, 0};
    return ::poll(&it, 1, 0) > 0 && it.revents;
}

std::string Conversation::read() {
    return client_->read() ? passMessages() : "the client closed the connection";
}

/// Whether the client is read: while it takes what that brings, the venue answers, and it sends no more than it may.
bool Conversation::mayRead() {
    return client_->takesMore() && traders_.takesMore() && !traders_.isBusy(member_.desk) && intake_.hasRoom();
}

/// Whoever isn't logged on behind a message, its Logon or its Logout, goes.
std::string Conversation::passMessages() {
    std::string message;
    isHeldUp_ = !mayRead();
    try {
        while (!client_->isEnding() && !isHeldUp_) {
            const bool comes = client_->next(message);
            passOver();
            if (!comes) break;
            passMessage(message);
            if (!session_->isLoggedOn()) client_->disconnect();
            isHeldUp_ = client_->hasMore() && !mayRead();
        }
    } catch (const BadBytes &why) {
        return why.what();
    }
    return "";
}

/// Passes a message on, and notes what that cost. Some questions are answered a moment later, and some by many answers.
void Conversation::passMessage(const std::string &message) {
    const long passed = traders_.sent();
    const int told = session_->getExpectedSenderNum();
    const std::size_t open = answers_.open();
    judge(message);
    auto cost = traders_.sent() != passed ? Intake::Cost::PassedOn : Intake::Cost::Looked;
    const bool isAnswered = session_->getExpectedSenderNum() != told || answers_.open() > open;
    if (isAnswered || !traders_.hasRoom()) cost = Intake::Cost::Answered;
    intake_.took(message.size(), cost);
    intake_.sentAgain(std::max(0, session_->getExpectedSenderNum() - told - 1));
}

void Conversation::judge(const std::string &message) {
    const Judged judged(message, client_->framer());
    if (judged.verdict() == Judged::Verdict::Garbled) {
        client_->passedOver().add(judged.why());
        passOver();
        return;
    }
    client_->passedOver().clear();
    last_ = judged.number(FIX::FIELD::MsgSeqNum);
    isLoggingOut_ = judged.is(FIX::FIELD::MsgType, "5");
    farewell_ = isLoggingOut_ ? judged.text(FIX::FIELD::Text) : "";
    wanted_ = isLoggingOut_ && isOfSession(judged) ? expectedBy(judged.text(FIX::FIELD::Text), answer_) : 0;
    const long expected = session_->getExpectedTargetNum();
    const bool isAsking = judged.is(FIX::FIELD::MsgType, "A") || judged.is(FIX::FIELD::MsgType, "2");
    if (!isAsking && !isLoggingOut_ && last_ == expected && isOfSession(judged)) day_.wentOn();
    garbled_.good(last_, expected);
    if (!gaps_.lets(judged, message.size(), expected)) return;
    if (!judged.isGood()) reject(message, judged, sessionReject(judged), judged.why());
    else if (judged.is(FIX::FIELD::MsgType, "4") &&
             judged.number(FIX::FIELD::NewSeqNo) > std::min(expected + MOST_STEP, MOST_NUMBER))
        reject(message, judged, rangeReject(judged, FIX::FIELD::NewSeqNo), "NewSeqNo (36) is too far away");
    else if (isUnsupportedType(judged.text(FIX::FIELD::MsgType)) || isOfTraders(judged))
        reject(message, judged, typeReject(judged, !member_.isOfCopies()), "Unsupported message type");
    else give(message, judged);
}

/// Whether a message asks for something in a session of copies, where nothing can be asked for.
bool Conversation::isOfTraders(const Judged &it) const {
    return member_.isOfCopies() && isRequest(it.text(FIX::FIELD::MsgType));
}

/// Whether a message has the CompIDs of the session.
bool Conversation::isOfSession(const Judged &it) const {
    return it.is(FIX::FIELD::SenderCompID, member_.session.getTargetCompID().getValue()) &&
           it.is(FIX::FIELD::TargetCompID, member_.session.getSenderCompID().getValue());
}

/// Gives the session a message, each field of which is canonical.
void Conversation::give(const std::string &message, const Judged &judged) {
    const bool isLogon = judged.is(FIX::FIELD::MsgType, "A");
    if (isLogon && isRefused(message, judged)) {
        client_->disconnect();
        return;
    }
    if (isLogon) answers_.begin(judged.text(FIX::FIELD::SendingTime));
    const long expected = session_->getExpectedTargetNum(), next = session_->getExpectedSenderNum();
    if (isLogon) answer_ = next;
    const bool isResend = judged.is(FIX::FIELD::MsgType, "2");
    if (isResend) answers_.beginAnew();  // What it hasn't got of that isn't sent again.
    if (isResend && isLongResend(message, judged)) {
        gaps_.given(judged, expected, session_->getExpectedTargetNum());
        return;
    }
    store_->letReset(isLogon && judged.is(FIX::FIELD::ResetSeqNumFlag, "Y"));
    client_->resends(isResend);
    try {
        session_->next(message, FIX::UtcTimeStamp());
    } catch (const FIX::InvalidMessage &why) {
        say(member_.deskName(), "a message can't be read: " + shown(why.what()));
    }
    client_->resends(false);
    store_->letReset(false);
    if (isLogon && !session_->isLoggedOn())
        sayRefused(last_ < expected ? tooLow(expected, last_) : "the events of its session say why");
    day_.answered(judged, next);
    gaps_.given(judged, expected, session_->getExpectedTargetNum());
}

void Conversation::sayRefused(const std::string &why) {
    say(member_.deskName(), "a Logon from " + clientsAddress_ + " is refused: " + why);
}

/// Whether a Logon isn't shown to the session. Its engine is told why by a message that it doesn't count. A Logout of
/// the session has the next number: behind that an engine that missed messages would never ask for the first of them.
bool Conversation::isRefused(const std::string &message, const Judged &logon) {
    std::string why = day_.isOpen() ? logons_.refusalOf(logon) : "the session's hours are " + day_.hours().words();
    if (why.empty() && day_.owes()) why = "what it wasn't sent is being told again: try again";
    if (why.empty()) return false;
    sayRefused(why);
    const std::string told = uncountedReject(member_.session, logon, why);
    session_->getLog()->onIncoming(message);
    session_->getLog()->onOutgoing(told);
    client_->send(told);
    return true;
}

/// Notes what a ResendRequest costs, and answers one of many messages by pieces, the first of them now.
bool Conversation::isLongResend(const std::string &message, const Judged &request) {
    const long end = session_->getExpectedSenderNum() - 1, first = request.number(FIX::FIELD::BeginSeqNo);
    const long asked = request.number(FIX::FIELD::EndSeqNo), last = asked ? std::min(asked, end) : end;
    const bool isWhole = first && !request.text(FIX::FIELD::EndSeqNo).empty();  // Else the session refuses it.
    if (!isWhole || last - first < Resends::PIECE) {
        intake_.sentAgain(std::max(0L, last - first + 1));
        return false;
    }
    session_->getLog()->onIncoming(message);
    resends_.ask(message, first, last);
    resendPiece();
    return true;
}

/// What the client has sent meanwhile is read between two pieces: else they would take all that may be read of it.
void Conversation::sendAgain() {
    if (!client_ || !resends_.isDue() || !client_->takesMore() || !intake_.hasRoom()) return;
    const bool isPassedBy = isClientsTurn_ && isRead() && client_->isReadable();
    isClientsTurn_ = false;
    if (!isPassedBy) resendPiece();
}

/// Sends the next piece again of what the client asked for, unless the session has begun anew since.
void Conversation::resendPiece() {
    if (resends_.last() >= session_->getExpectedSenderNum()) {
        resends_.clear();
        return;
    }
    const long from = resends_.reached();
    const FIX::Message piece = resends_.next(store_->nextKept(from));
    intake_.sentAgain(store_->keptOf(from, resends_.reached() - 1) + 1);
    client_->resends(true);
    session_->next(piece, FIX::UtcTimeStamp());
    client_->resends(false);
    day_.sentAgain(resends_.reached());
    isClientsTurn_ = true;
}

/// Says what was passed over, if anything was. A garbled message isn't counted: the one behind it shows a gap, and that
/// is asked for; once more by the edge itself where what was asked for is garbled again.
void Conversation::passOver() {
    PassedOver &it = client_->passedOver();
    const std::string news = it.news(), excess = it.excess();
    const PassedOver::Count fresh = it.fresh();
    if (!news.empty()) {
        say(member_.deskName(), "a message can't be read: " + news);
        session_->getLog()->onEvent("Garbled message: " + news);
    }
    if (fresh.bytes || fresh.messages) intake_.took(fresh.bytes, Intake::Cost::Answered);
    if (it.isOtherVersion()) endSession("Incorrect BeginString", false);
    if (!excess.empty()) endSession(excess);
    const long expected = session_->getExpectedTargetNum();
    const Garbled::Act act = garbled_.came(expected, fresh.messages);
    if (act == Garbled::Act::End) endSession(garbled_.why());
    if (act != Garbled::Act::AskAgain || !session_->isLoggedOn()) return;
    FIX::Message asked = resendRequest(expected);
    send(asked);
}

/// Answers a message that the session isn't given, as the session answers one that its dictionary refuses: behind the
/// same looks at who sent it and at its number. It counts, since its engine would send it again and again.
void Conversation::reject(const std::string &message, const Judged &refused, FIX::Message told,
                          const std::string &why) {
    const long number = refused.number(FIX::FIELD::MsgSeqNum), expected = session_->getExpectedTargetNum();
    session_->getLog()->onIncoming(message);
    if (!isOfSession(refused)) endSession("SenderCompID (49) or TargetCompID (56) is another one");
    if (number > expected) return;
    if (number < expected && refused.is(FIX::FIELD::PossDupFlag, "Y")) return;
    if (number < expected) endSession(tooLow(expected, number));
    session_->getLog()->onEvent("Message " + std::to_string(number) + " Rejected: " + why);
    send(told);
    session_->setNextTargetMsgSeqNum(static_cast<int>(number) + 1);
}

void Conversation::send(FIX::Message &message) {
    if (!session_->send(message)) throw std::runtime_error("the store of its session takes nothing in");
}

/// What is written of a message of the session. QuickFIX counts a Logout and a Reject whatever their numbers are: an
/// engine that misses something would never ask for the first of that behind one. So such an engine is told by a word
/// that it doesn't count, and sees the gap by the next message, or at its next Logon.
std::string Conversation::writing(const std::string &message) {
    const bool hasAll = !resends_.isDue() && (day_.hasAll() || isLoggingOut_);
    if (hasAll || !isCountedAnyway(message)) return message;
    const std::string told = uncounted(message, last_);
    session_->getLog()->onEvent("The last message isn't sent, but a word that isn't counted: its engine may miss some");
    session_->getLog()->onOutgoing(told);
    if (isLogout(message)) client_->disconnect();
    return told;
}

void Conversation::logOut(const std::string &why, bool isEdges) {
    FIX::Message told = sessionLogout(why, isEdges);
    if (session_->isLoggedOn()) send(told);
}

/// Tells the client why its connection ends, and lets that end.
void Conversation::endSession(const std::string &why, bool isEdges) {
    logOut(why, isEdges);
    throw BadBytes(why);
}

}
