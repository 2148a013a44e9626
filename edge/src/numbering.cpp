#include "numbering.h"

#include "orders.h"
#include "sequence.h"

namespace edge {

namespace {

using std::to_string;

void needNumber(const char *which, long number) {
    if (number < 1) throw Refused(0, std::string(which) + " can't be " + to_string(number) + ": numbers begin with 1");
    if (number > MOST_NUMBER)
        throw Refused(
            0, std::string(which) + " can't be " + to_string(number) + ", which is above " + to_string(MOST_NUMBER));
}

std::string changed(const char *which, long now, long before) {
    return std::string(which) + " " + to_string(now) +
           (now == before ? ", as it was" : " instead of " + to_string(before));
}

}

std::string Numbering::words() const {
    const SessionState &state = record_.state();
    return member_.session.getTargetCompID().getString() + ": next out " + to_string(state.sender) + ", next in " +
           to_string(state.target);
}

/// An engine that is there goes on with the numbers that it has.
void Numbering::need(long out, long in) const {
    if (conversation_.isOn())
        throw Refused(0, "its engine is there, from " + conversation_.clientsAddress() + ", and has to log out first");
    if (day_.owes()) throw Refused(0, "its engine is being told again what it wasn't sent: ask once more");
    if (record_.ofMember().mayTakeBack()) throw Refused(0, "the journal isn't read to its end yet: ask once more");
    const long next = record_.state().sender;
    if (out != next) needNumber("next out", out);  // What is above all by itself stays, and the other one is set.
    needNumber("next in", in);
    if (out < next)
        throw Refused(0, "next out " + to_string(out) + " is below " + to_string(next) +
                             ", and its engine would never ask for what stands between");
}

std::string Numbering::set(long out, long in) {
    need(out, in);
    const long sender = record_.state().sender, target = record_.state().target;
    const long count = out > sender ? day_.goOnWith(out) : 0;
    session_->setNextTargetMsgSeqNum(static_cast<int>(in));
    std::string words = member_.session.getTargetCompID().getString() + ": " + changed("next out", out, sender) + "; " +
                        changed("next in", in, target);
    if (in > target) words += ", and what its engine sent from " + to_string(target) + " on isn't asked for";
    if (count)
        words += "; " + to_string(count) + " reports that it wasn't sent are told again as " + to_string(out) + " to " +
                 to_string(out + count - 1);
    if (day_.owes()) words += "; what it wasn't sent is told again from " + to_string(out) + " on";
    return words;
}

}
