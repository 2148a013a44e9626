#pragma once

// Asks the process of a member for the names that stand in its reports. copies.h asks here, and the member's operators.h
// answers, by told_names.h.

#include <chrono>
#include <string>

#include "descriptor.h"
#include "settings.h"
#include "told_names.h"

namespace edge {

/// The names of one member, as its process tells them. It asks one question at a time and waits for none; a process
/// that doesn't answer is asked again later. So many names are kept, of the greatest numbers.
///
/// A name is kept only of a number that the venue's journal has: no other request ever gets that number, even where the
/// member's record is lost. What is kept holds for a moment behind each answer, and only as long as the member's record
/// is the one that it was told by.
class NameAsker : public NameBook {
public:
    static constexpr std::size_t MOST_NAMES = 8192;

    /// Of a member's requests at the venue of this letter; empty: the member has one venue.
    explicit NameAsker(const CopiedMember &member, const std::string &venue = "") : member_(member), venue_(venue) {}

    /// Wants the names from this number on, up to the greatest one that the journal is known to have.
    void ask(long from, long greatest);

    /// Where its answer comes from, or -1.
    int fd() const { return socket_.get(); }

    /// Reads what has come, and lets go a process that is silent.
    void look();

    /// Whether the name of this number is there, as the member's record has it now.
    bool has(long number) const { return Clock::now() < holdsUntil_ && told_.names.count(number); }

    /// The CompID of the desk that is told of a number that it has, which is one of the settings.
    const std::string &compIdOf(long number) const {
        const std::string &own = told_.names.at(number).compId;
        return own.empty() ? member_.compIds.front() : own;
    }

    // Of numbers whose names are there.
    std::string nameOf(long number) override { return told_.names.at(number).name; }
    bool isExpiry(long number) override { return told_.names.at(number).isExpiry; }
    bool isOfOperator(long number) override { return told_.names.at(number).isOfOperator; }
    bool isOfNoDesk(long number) override { return told_.names.at(number).isOfNoDesk; }

    /// Whether the process didn't answer the last question with a name that was asked for: why, or nothing.
    const std::string &away() const { return away_; }

    /// How long of this time it may be until it is to be looked at.
    std::chrono::milliseconds pause(std::chrono::milliseconds most) const;

private:
    using Clock = std::chrono::steady_clock;

    void take(const std::string &line);
    void keep(ToldNames came);
    void fail(const std::string &why);
    std::string strangerIn(const ToldNames &came) const;
    void refuse(const std::string &compId);

    const CopiedMember member_;
    const std::string venue_;
    Descriptor socket_;
    std::string bytes_, away_;
    std::string saidOfOther_;  // What is said isn't said again while it lasts.
    ToldNames told_;
    long from_ = 0, greatest_ = 0;
    Clock::time_point since_, askAt_, holdsUntil_;
};

}
