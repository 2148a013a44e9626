#include "gaps.h"

#include <quickfix/FixFieldNumbers.h>

namespace edge {

namespace {

namespace FIELD = FIX::FIELD;

constexpr std::size_t MOST_KEPT = 200;
constexpr std::size_t MOST_BYTES = 32 << 20;
constexpr std::size_t BESIDE_MESSAGE = 1 << 10;  // What is taken for a message beside its bytes, about.

/// Whether the session keeps such a message until its number is due: what is about numbers it looks at now.
bool isKept(const Judged &message) {
    if (message.is(FIELD::MsgType, "4")) return message.is(FIELD::GapFillFlag, "Y");
    return !message.is(FIELD::MsgType, "2") && !message.is(FIELD::MsgType, "3") && !message.is(FIELD::MsgType, "5");
}

/// The number behind this message, which has this one.
long behind(const Judged &message, long number) {
    return message.is(FIELD::MsgType, "4") ? message.number(FIELD::NewSeqNo) : number + 1;
}

}

bool Gaps::lets(const Judged &message, std::size_t size, long expected) {
    const long number = message.number(FIELD::MsgSeqNum);
    if (number <= expected) return true;
    bytes_ += size + BESIDE_MESSAGE;
    if (bytes_ > MOST_BYTES) throw BadBytes("too much comes behind a gap in its numbers");
    if (!isKept(message) || kept_.size() < MOST_KEPT || kept_.count(number)) return true;
    if (kept_.rbegin()->first < expected) throw BadBytes("too many gaps in its numbers were never filled");
    return false;
}

void Gaps::given(const Judged &message, long before, long now) {
    const long number = message.number(FIELD::MsgSeqNum);
    if (number > before && isKept(message)) kept_[number] = behind(message, number);
    if (now <= before) return;
    kept_.erase(before);
    // What was due then was taken in one after another. All else below is kept as long as the connection lasts.
    for (long due = behind(message, before); due < now;) {
        const auto found = kept_.find(due);
        if (found == kept_.end() || found->second <= due) return;
        due = found->second;
        kept_.erase(found);
    }
}

void Gaps::clear() {
    kept_.clear();
    bytes_ = 0;
}

}
