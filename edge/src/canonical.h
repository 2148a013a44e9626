#pragma once

#include <cstddef>
#include <stdexcept>
#include <string>

#include "framer.h"

namespace edge {

/// A client sends what can't be read, or more than is kept of it: its connection ends.
class BadBytes : public std::runtime_error {
    using std::runtime_error::runtime_error;
};

/// A message that the framer has found, by the fields that the framer lists, judged before anything else reads it. What
/// isn't good reaches neither the library nor anything else of the edge. It refers to the message and to the framer's
/// list, which stands until the framer looks again.
class Judged {
public:
    enum class Verdict {
        Good,     // The framer takes it, and what a session goes by is there once.
        Refused,  // Its header is right, and a field isn't: a Reject says which.
        Garbled,  // Its header isn't: FIX passes such a message over, as if it had never come.
    };

    /// Of these bytes, which are the message that the framer has found last.
    Judged(const std::string &message, const Framer &framer);

    Verdict verdict() const { return verdict_; }
    bool isGood() const { return verdict_ == Verdict::Good; }

    /// What is wrong with it, in words that have none of its bytes.
    const std::string &why() const { return why_; }

    /// The SessionRejectReason (373) of what is wrong, and the field, or 0 where that has no valid tag.
    int reason() const { return reason_; }
    int tag() const { return tag_; }

    /// The value of the first field of this tag, or nothing.
    std::string text(int tag) const;

    /// Whether the first field of this tag has this value.
    bool is(int tag, const std::string &value) const;

    /// The number that a field has, which the framer knows to be one (MsgSeqNum, NewSeqNo and others), or 0.
    long number(int tag) const;

private:
    void takeVerdict(const Sight &sight);
    void needOnce();
    void needHeader();
    void needRange();
    void garbled(const std::string &why);
    void refused(int reason, int tag, const std::string &why);
    const Place *find(int tag) const;
    const Place *begin() const { return fields_; }
    const Place *end() const { return fields_ + count_; }

    const std::string &message_;
    const Place *const fields_;
    const std::size_t count_;
    Verdict verdict_ = Verdict::Good;
    int reason_ = 0, tag_ = 0;
    std::string why_;
};

}
