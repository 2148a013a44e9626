#pragma once

// The lines of venue-events (docs/EVENTS.md), as the feed reads them: each is an event, and goes on to trades.h and
// books.h.

#include <string>
#include <vector>

namespace feed {

/// A line whose words are read. It refers to the line.
class Event {
public:
    enum class Kind { Command, Output, Level, Other };

    explicit Event(const std::string &line);

    Kind kind() const { return kind_; }
    const std::string &line() const { return line_; }

    /// A word behind the first, from 0 on; nothing where there is none.
    std::string word(std::size_t number) const;

    /// The value of a field of an output's report, or nothing.
    std::string field(const std::string &tag) const;

    /// Of an output: k of the member Ck that it goes to; else 0.
    int member() const;

    /// Whether it is a report of a trade.
    bool isFill() const { return kind_ == Kind::Output && field("150") == "F"; }

private:
    const std::string &line_;
    Kind kind_;
};

}
