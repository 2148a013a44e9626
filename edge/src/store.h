#pragma once

// The session's messages and numbers, as the library asks for them. What the edge sends to a member is put here before
// it goes to connection.h.

#include <quickfix/MessageStore.h>

#include <string>
#include <vector>

#include "session_record.h"

namespace edge {

/// The store of a desk's session, in its member's record: what it takes in is committed at the end of the turn.
class Store : public FIX::MessageStore {
public:
    /// Opens the record. Where that can't be done, the store is empty, and has a fault.
    Store(Record &record, int desk, const FIX::SessionID &session);

    bool set(int number, const std::string &message) throw(FIX::IOException) override;
    void get(int from, int to, std::vector<std::string> &messages) const throw(FIX::IOException) override;

    int getNextSenderMsgSeqNum() const throw(FIX::IOException) override;
    int getNextTargetMsgSeqNum() const throw(FIX::IOException) override;
    void setNextSenderMsgSeqNum(int number) throw(FIX::IOException) override;
    void setNextTargetMsgSeqNum(int number) throw(FIX::IOException) override;
    void incrNextSenderMsgSeqNum() throw(FIX::IOException) override;
    void incrNextTargetMsgSeqNum() throw(FIX::IOException) override;

    /// A moment that is in the same day as any that the library looks at: it ends no day by itself.
    FIX::UtcTimeStamp getCreationTime() const throw(FIX::IOException) override;

    /// Empties the store where that was allowed, and else does nothing.
    void reset() throw(FIX::IOException) override;
    void refresh() throw(FIX::IOException) override;

    /// Whether the library may empty it, as a member may ask for by its Logon.
    void letReset(bool may) { mayReset_ = may; }

    /// Begins a day: the next numbers are 1, and what the last day's messages were can be read until `dropRest`.
    void beginDay();

    /// Drops what stands behind the messages that were put since the numbers began.
    void dropRest();

    /// The first number from this one on of which a message is kept, and how many are up to another one: what is of its
    /// moment isn't. Where there is none the first number is that of no message yet.
    long nextKept(long from) const;
    long keptOf(long from, long to) const;

    /// Drops the messages from this number to in front of another one, as what is told again under others.
    void drop(long from, long end);

    /// Why something couldn't be kept or read, or nothing. Nothing is put behind that until the record is read anew, by
    /// `refresh`.
    const std::string &fault() const { return fault_; }

private:
    template <class Act>
    void noting(Act act) const;
    std::string fillerOf(int number) const;

    SessionRecord own_;
    Record &record_;
    const FIX::SessionID session_;
    mutable std::string fault_;
    bool mayReset_ = false;
    mutable Statement range_, next_, count_, empty_, drop_;
};

}
