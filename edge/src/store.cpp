#include "store.h"

#include <quickfix/Message.h>

#include <ctime>

#include "message_types.h"

namespace edge {

namespace {
constexpr long DAY = 24 * 60 * 60;  // Seconds for which a name is kept at least.
constexpr int HOUR = 60 * 60;       // In front of each moment that the library looks at.
}

Store::Store(Record &record, int desk, const FIX::SessionID &session)
    : own_(record, desk),
      record_(record),
      session_(session),
      range_(record.database(), "SELECT number, bytes FROM messages WHERE number >= ? AND number <= ? ORDER BY number"),
      next_(record.database(), "SELECT number FROM messages WHERE number >= ? AND number < ? ORDER BY number LIMIT 1"),
      count_(record.database(), "SELECT count(*) FROM messages WHERE number >= ? AND number <= ?"),
      empty_(record.database(), "DELETE FROM messages WHERE number >= ? AND number < ?"),
      drop_(record.database(), "DELETE FROM messages WHERE number >= ? AND number < ?") {
    try {
        refresh();
    } catch (const FIX::IOException &) {
        // Its member's thread tries it again.
    }
}

/// Does this, and notes why it fails. Only an IOException may come out of what the library calls: any other one would
/// end the program.
template <class Act>
void Store::noting(Act act) const {
    try {
        if (!fault_.empty()) throw FIX::IOException(fault_);
        act();
    } catch (const std::exception &why) {
        if (fault_.empty()) fault_ = why.what();
        throw FIX::IOException(fault_);
    }
}

/// What is of its moment has its number, and isn't kept: who asks for it again is told that there is nothing there.
bool Store::set(int number, const std::string &message) throw(FIX::IOException) {
    noting([&] {
        if (!isOfItsMoment(message)) own_.put(number, message);
    });
    return true;
}

/// A range that ends within a gap has a message of the session itself at its end: the library would else fill the gap
/// from the beginning of the range on, which an engine that has got some of it passes over.
void Store::get(int from, int to, std::vector<std::string> &messages) const throw(FIX::IOException) {
    noting([&] {
        messages.clear();
        record_.fillTables();
        long last = 0;
        for (Rows rows = range_.of(own_.place(from), own_.place(to)); rows.next();) {
            last = numberAt(rows.number(0));
            messages.push_back(rows.bytes(1));
        }
        if (last && last < to && to < own_.state().sender) messages.push_back(fillerOf(to));
    });
}

std::string Store::fillerOf(int number) const {
    FIX::Message it;
    it.getHeader().setField(session_.getBeginString());
    it.getHeader().setField(FIX::MsgType("0"));
    it.getHeader().setField(session_.getSenderCompID());
    it.getHeader().setField(session_.getTargetCompID());
    it.getHeader().setField(FIX::MsgSeqNum(number));
    it.getHeader().setField(FIX::SendingTime(FIX::UtcTimeStamp()));
    return it.toString();
}

int Store::getNextSenderMsgSeqNum() const throw(FIX::IOException) {
    return static_cast<int>(own_.state().sender);
}

int Store::getNextTargetMsgSeqNum() const throw(FIX::IOException) {
    return static_cast<int>(own_.state().target);
}

void Store::setNextSenderMsgSeqNum(int number) throw(FIX::IOException) {
    noting([&] { own_.change().sender = number; });
}

void Store::setNextTargetMsgSeqNum(int number) throw(FIX::IOException) {
    noting([&] { own_.change().target = number; });
}

void Store::incrNextSenderMsgSeqNum() throw(FIX::IOException) {
    noting([&] { own_.change().sender++; });
}

void Store::incrNextTargetMsgSeqNum() throw(FIX::IOException) {
    noting([&] { own_.change().target++; });
}

/// The library takes it before or behind the moment that it compares it with: it is behind both.
FIX::UtcTimeStamp Store::getCreationTime() const throw(FIX::IOException) {
    FIX::UtcTimeStamp it;
    it += HOUR;
    return it;
}

/// What was told stays as it is. Where this fails that is noted alone: an exception would end the program where the
/// library makes a session.
void Store::reset() throw(FIX::IOException) {
    if (!mayReset_) return;
    try {
        beginDay();
        dropRest();
    } catch (const FIX::IOException &) {
        // Nothing is put into the store now, so that it isn't taken for an empty one.
    }
}

void Store::beginDay() {
    noting([&] {
        SessionState &state = own_.change();
        state.sender = state.target = state.heard = 1;
        state.created = FIX::UtcTimeStamp();
        record_.dropNamesBefore(std::time(nullptr) - DAY);
    });
}

void Store::dropRest() {
    noting([&] {
        record_.changeTables();
        empty_.run(own_.place(own_.state().sender), placeOf(own_.desk() + 1, 0));
        own_.numbersBegan();
    });
}

long Store::nextKept(long from) const {
    long first = 0;
    noting([&] {
        record_.fillTables();
        Rows rows = next_.of(own_.place(from), placeOf(own_.desk() + 1, 0));
        if (rows.next()) first = numberAt(rows.number(0));
    });
    return first ? first : own_.state().sender;
}

long Store::keptOf(long from, long to) const {
    long count = 0;
    noting([&] {
        record_.fillTables();
        Rows rows = count_.of(own_.place(from), own_.place(to));
        if (rows.next()) count = rows.number(0);
    });
    return count;
}

void Store::drop(long from, long end) {
    noting([&] {
        record_.changeTables();
        drop_.run(own_.place(from), own_.place(end));
    });
}

void Store::refresh() throw(FIX::IOException) {
    fault_.clear();
    noting([&] { own_.open(); });
}

}
