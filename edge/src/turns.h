#pragma once

// What the last turns of a member wrote, in front of the tables of names and messages. record.h keeps one row of each
// such turn, so that its commit writes one page, and puts many of them into the tables at a quiet moment.

#include <algorithm>
#include <cstddef>
#include <functional>
#include <string>
#include <unordered_map>
#include <vector>

namespace edge {

/// A name of a request as it stands in the record: its kind is one of Names::Kind.
struct KeptName {
    long number = 0;
    char kind = '\0';
    std::string name;
    long at = 0;  // The second in which it was given.
};

/// Names and messages that turns have written and that the tables don't have yet, those of the present turn among them.
class Turns {
public:
    void add(KeptName it);
    void put(long place, const std::string &bytes);

    /// Puts the numbers that the session of a desk has behind the present turn, or a venue at this place of the record.
    /// They stand in its row alone.
    void putNumbers(int desk, const std::string &numbers);
    void putVenue(long place, const std::string &numbers);

    /// What the present turn wrote, in the bytes of its row.
    const std::string &present() const { return present_; }

    /// The present turn is kept, so the next one begins.
    void kept();

    /// Takes in the row of a turn that was kept in this second, and calls this for the numbers of a desk's session, or
    /// of a venue, which says whether it can read them. Whether the row is whole.
    using TakeNumbers = std::function<bool(bool isOfVenue, long, const std::string &)>;
    bool take(const std::string &row, long at, const TakeNumbers &takeNumbers);

    /// The name of this number, or nothing; and the first one that went to the venue or was refused by this text.
    const KeptName *ofNumber(long number) const;
    const KeptName *ofName(const std::string &name) const;

    /// Calls these for all names and messages, each in the order in which they were written.
    void each(const std::function<void(const KeptName &)> &name,
              const std::function<void(long, const std::string &)> &message) const;

    /// So many rows there are, and so much in all: names and messages, or rows where most of them have none of these.
    long rows() const { return rows_; }
    std::size_t size() const { return std::max(names_.size() + messages_.size(), static_cast<std::size_t>(rows_)); }

    void clear();

private:
    struct Message {
        long place;
        std::string bytes;
    };

    void index(KeptName it);

    std::vector<KeptName> names_;
    std::unordered_map<std::string, std::size_t> byName_;
    std::unordered_map<long, std::size_t> byNumber_;
    std::vector<Message> messages_;
    std::string present_;
    long rows_ = 0;
};

}
