#pragma once

// What operators ask of a member, on the member's own thread: control.h hands commands in, traders.h carries them out,
// and each is told its outcome behind the commit of the turn in which that is known.

#include <list>
#include <string>

#include "commands.h"
#include "member_session.h"
#include "settings.h"
#include "traders.h"

namespace edge {

/// The commands for one member that aren't done yet, and what became of each. One that cancels orders is done once the
/// venue has answered the cancels. Each that changes something has a line that says who, when, what, and the outcome.
class Operators {
public:
    Operators(const MemberSettings &member, Traders &traders, std::list<MemberSession> &sessions)
        : member_(member.name()), takesOrders_(!member.isOfCopies()), traders_(traders), sessions_(sessions) {}

    /// Gives it the log of the first session.
    void attach(Log &log) { log_ = &log; }

    /// Carries a command out, or begins to.
    void take(Asked asked);

    /// Tells that a command can't be carried out, and why.
    void refuse(const Asked &asked, const std::string &why);

    /// Looks which commands are done, or have waited for long enough.
    void look();

    /// What was done is committed: tells each outcome that is known.
    void release();

    /// What was done in this turn is lost: why.
    void drop(const std::string &why);

    /// The process ends.
    void end();

private:
    struct Entry {
        Asked asked;
        std::string what;  // What was done at once, in words.
        Sweeps sweep;
        bool isKept = false, isOver = false, isDone = false;
    };

    void act(Entry &it);
    void cancel(Entry &it);
    Numbering &numberingOf(int desk);
    std::string numbersOf(int desk);
    std::string namesOf(const Command &command);
    void tell(const Asked &asked, bool isDone, const std::string &what);

    const std::string member_;
    const bool takesOrders_;
    Traders &traders_;
    std::list<MemberSession> &sessions_;
    Log *log_ = nullptr;
    std::list<Entry> entries_;
};

}
