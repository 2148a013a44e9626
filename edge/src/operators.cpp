#include "operators.h"

#include <utility>

#include "lines.h"
#include "seconds.h"

namespace edge {

namespace {

using Clock = std::chrono::steady_clock;

constexpr int LINES = 1000;  // In a second: none of what operators did is left out.
const char *const UNCHANGED = ": nothing was changed";

/// The orders of a sweep that the venue has answered for.
std::string cancelled(const Sweeps &it) {
    const std::size_t count = it.count();
    if (!count) return "no order rested";
    if (count == 1) return "the venue has answered the cancel of 1 order";
    return "the venue has answered the cancels of " + std::to_string(count) + " orders";
}

}

void Operators::take(Asked asked) {
    if (Clock::now() >= asked.until) {
        refuse(asked, "its thread was held up for too long");
        return;
    }
    entries_.push_back(Entry());
    entries_.back().asked = std::move(asked);
    try {
        act(entries_.back());
    } catch (const Refused &why) {
        const Entry it = std::move(entries_.back());
        entries_.pop_back();
        refuse(it.asked, why.what());
    }
}

void Operators::act(Entry &it) {
    Switches &switches = traders_.switches();
    const Command &command = it.asked.command;
    if (!command.symbol.empty() && !switches.knows(command.symbol))
        throw Refused(0, command.symbol + " isn't a symbol of the venue");
    if (!takesOrders_ && !command.isQuestion() && !command.isOfNumbers())
        throw Refused(0, "it is sent copies, and trades nothing");
    if (command.desk && !command.isOfNumbers())
        throw Refused(0, "it is about a whole member, and not about one desk: name " + member_);
    it.isOver = it.isDone = true;
    switch (command.kind) {
        case Command::Kind::Stop:
        case Command::Kind::Cancel: cancel(it); break;
        case Command::Kind::Resume:
            it.what = switches.isStopped() ? "trades again" : "wasn't stopped";
            switches.resume();
            break;
        case Command::Kind::Halt:
            it.what = command.symbol + " is halted";
            switches.halt(command.symbol, it.asked.who);
            break;
        case Command::Kind::ResumeSymbol:
            it.what = command.symbol + (switches.isHalted(command.symbol) ? " trades again" : " wasn't halted");
            switches.resume(command.symbol);
            break;
        case Command::Kind::Numbers: it.what = numbersOf(command.desk); break;
        case Command::Kind::SetNumbers: it.what = numberingOf(command.desk).set(command.out, command.in); break;
        case Command::Kind::Names: it.what = namesOf(command); break;
        case Command::Kind::Status: break;  // The page's words are the answer to that.
    }
}

/// The numbers of a desk's session. Of several desks one has to be named.
Numbering &Operators::numberingOf(int desk) {
    if (!desk && sessions_.size() > 1)
        throw Refused(
            0, "it has several desks: name one, as " + member_ + ".1 or " + sessions_.back().settings().deskName());
    for (MemberSession &it : sessions_)
        if (it.desk() == (desk ? desk : FIRST_DESK)) return it.numbering();
    throw Refused(0, "it has no desk " + std::to_string(desk));
}

/// The same in words, and without a desk those of all.
std::string Operators::numbersOf(int desk) {
    if (desk) return numberingOf(desk).words();
    std::string words;
    for (MemberSession &it : sessions_) words += (words.empty() ? "" : "; ") + it.numbering().words();
    return words;
}

/// The names of requests at a venue.
std::string Operators::namesOf(const Command &command) {
    Trader *const trader = traders_.ofLetter(command.venue);
    if (!trader) throw Refused(0, "it has no venue " + command.venue);
    return trader->namesFrom(command.from);
}

/// Cancels what rests, and stops the member before that where this is asked for.
void Operators::cancel(Entry &it) {
    if (!traders_.isReady()) throw Refused(0, "the venue isn't there");
    it.sweep = traders_.cancelEach();
    if (it.asked.command.kind == Command::Kind::Stop) {
        traders_.switches().stop(it.asked.who);
        it.what = "stopped, and ";
    }
    it.isOver = it.isDone = traders_.isOver(it.sweep);
    if (it.isOver) it.what += cancelled(it.sweep);
}

void Operators::look() {
    for (Entry &it : entries_) {
        if (it.isOver) continue;
        it.isDone = traders_.isOver(it.sweep);
        it.isOver = it.isDone || Clock::now() >= it.asked.until;
        if (it.isDone) it.what += cancelled(it.sweep);
        else if (it.isOver)
            it.what += "the venue hasn't answered all cancels within " + std::to_string(MOST_WAIT) + " s; " +
                       traders_.restsOf(it.sweep);
    }
}

void Operators::release() {
    for (auto it = entries_.begin(); it != entries_.end();) {
        it->isKept = true;
        if (it->isOver) tell(it->asked, it->isDone, it->what);
        it = it->isOver ? entries_.erase(it) : std::next(it);
    }
}

/// A command that was kept by a turn before goes on: the venue's answers come again.
void Operators::drop(const std::string &why) {
    for (auto it = entries_.begin(); it != entries_.end();) {
        if (!it->isKept) refuse(it->asked, "it isn't served: " + why);
        it = it->isKept ? std::next(it) : entries_.erase(it);
    }
}

void Operators::refuse(const Asked &asked, const std::string &why) {
    tell(asked, false, why + UNCHANGED);
}

void Operators::end() {
    for (const Entry &it : entries_) tell(it.asked, false, it.what + "the edge stops; " + traders_.restsOf(it.sweep));
    entries_.clear();
}

void Operators::tell(const Asked &asked, bool isDone, const std::string &what) {
    const std::string line = "operator " + asked.who + " at " + timeOf(asked.at) + ": " + asked.command.words() + ": " +
                             (isDone ? DONE : FAILED) + what;
    if (!asked.command.isQuestion()) {
        say(deskName(member_, asked.command.desk ? asked.command.desk : FIRST_DESK), line, LINES);
        log_->onEvent(line);
    }
    asked.tell(isDone, what);
}

}
