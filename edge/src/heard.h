#pragma once

// How far a member has been sent what its session's store has. What it wasn't sent when a day ends, day.h tells again
// in the next one.

#include <algorithm>

namespace edge {

/// All messages below `end` were written to an engine that was logged on. A report that was stored while its member was
/// away is above that, until the engine has asked for what it missed.
class Heard {
public:
    explicit Heard(long end = 1) : end_(end) {}

    long end() const { return end_; }

    /// An engine has logged on, whose Logon was answered by the message of this number.
    void loggedOn(long answer) {
        answer_ = answer;
        asked_ = end_;
        hasAsked_ = goesOn_ = false;
        isLive_ = false;  // It may refuse the answer, and pass over all that comes behind it.
        hasAll_ = answer == 1;
    }

    /// It is sent again what is below this number, as it has asked for.
    void asked(long end) {
        asked_ = std::max(asked_, end);
        hasAsked_ = true;
        goesOn_ = false;
        if (answer_ && asked_ >= answer_) isLive_ = hasAll_ = true;
    }

    /// It goes on. Where it hasn't asked for anything it misses nothing.
    void wentOn() {
        if (answer_ && !hasAsked_) isLive_ = hasAll_ = true;
        goesOn_ = answer_ != 0;
    }

    /// Whether it is known that it misses nothing of what was stored before it logged on, by what it has said since:
    /// what was written to a connection of before may never have reached it.
    bool hasAll() const { return hasAll_; }

    /// Whether that is so, or it goes on behind what it has asked for: it may not want more of that.
    bool goesOn() const { return hasAll_ || goesOn_; }

    /// All was written to it that it was to be sent, and this number is the next one.
    void written(long next) {
        if (answer_) end_ = isLive_ ? next : std::max(end_, asked_);
    }

    /// It is logged on no longer.
    void left() {
        answer_ = 0;
        isLive_ = hasAll_ = goesOn_ = false;
    }

private:
    long end_, asked_ = 0;
    long answer_ = 0;  // 0: no engine is logged on.
    bool hasAsked_ = false;
    bool isLive_ = false;  // It misses nothing of what was stored before it logged on.
    bool hasAll_ = false;  // And says so.
    bool goesOn_ = false;  // Its last message asks for nothing.
};

}
