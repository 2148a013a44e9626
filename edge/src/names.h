#pragma once

// The names of a member's requests, and the venue's numbers for them. A request's name is written here in trader.cpp
// before the request goes to venue_link.h, and each report finds its name here.

#include <functional>
#include <string>
#include <vector>

#include "venue_record.h"

namespace edge {

// Names of the edge's own, which members can't give: of each probe, and the beginnings of those of cancels, of the ends
// of Day orders, and of requests whose names nobody knows.
constexpr const char *PROBE = "edge-probe";
constexpr const char *CANCEL = "edge-cancel-";
constexpr const char *EXPIRY = "edge-expiry-";
constexpr const char *NAMELESS = "edge-lost-";

/// What a report has to know of the numbers that stand in it.
class NameBook {
public:
    virtual ~NameBook() = default;

    /// What the member's desk called the request of this number.
    virtual std::string nameOf(long number) = 0;

    /// Whether it is a cancel by the edge of a Day order whose day has ended.
    virtual bool isExpiry(long number) = 0;

    /// Whether it is a cancel by the edge that an operator has asked for.
    virtual bool isOfOperator(long number) = 0;

    /// Whether nobody knows which one of several desks sent this request.
    virtual bool isOfNoDesk(long) { return false; }
};

/// What who copies reports is told of a number: the name, the desk that is told of the number, and what else a NameBook
/// has.
struct NamedNumber {
    long number;
    std::string name;
    int desk;
    bool isOfNoDesk, isExpiry, isOfOperator;
};

/// The row of a sweep, and the desk that it stands for.
struct KeptSweep {
    long number;
    int desk;
    std::string text;
};

/// The names that a member gives its requests (ClOrdID), and the rising numbers that a venue knows them by. They are
/// kept in the member's record, so a name is committed before its request is sent. Each desk of the member has names of
/// its own, and each number is of one desk. Of a member with several venues each venue has numbers of its own, and a
/// name that came to one of them has come to all. What fails is a DatabaseFault.
class Names : public NameBook {
public:
    enum class Kind : char {
        Request = 'r',         // Of the member. What rests by it is Day.
        GoodTillCancel = 'g',  // Of the member, too. What rests by it stays when a day ends.
        Cancel = 'c',          // A cancel by the edge, where the member went away, or of many orders at once.
        Expiry = 'e',          // A cancel by the edge of a Day order whose day has ended.
        Operator = 'o',        // A cancel by the edge, as an operator has asked for.
        Probe = 'p',           // A cancel of nothing: its answer shows that all before it has been answered.
        Refused = 'x',         // The edge refused it, so the venue never has its number.
        Struck = 's',          // The venue rejected it as a message, as its member was told.
        MassCancel = 'q',      // Of the member, and answered by the edge, so the venue never has its number.
        Sweep = 'w',           // What is kept of many cancels at once until they are over. It isn't a name.
    };

    static constexpr long GREATEST = 999999999999999;  // The venue takes no greater number.

    /// Of a venue, by its place among those of the settings and by its letter; empty: the member has one venue.
    explicit Names(Record &record, std::size_t venue = 0, const std::string &letter = "");

    /// A number as it stands in names that the edge itself gives: with the letter of its venue in front, but for the
    /// first one that the record has had.
    std::string ownWord(long number) const;

    /// Keeps this name of a desk, and gives its number.
    long add(const std::string &name, Kind kind, int desk = FIRST_DESK);

    /// Keeps that the edge refused a request of this name, which isn't known yet. While the venue isn't there, a number
    /// in its row may come to be one of the journal's: then that stands beside the venue's numbers.
    void refuse(const std::string &name, int desk) { keep(name, Kind::Refused, desk); }

    /// Keeps a row that the venue never gets a number of: its place among the numbers, as of what is refused.
    long keep(const std::string &name, Kind kind, int desk) {
        return isBeside() ? addBeside(name, kind, desk) : add(name, kind, desk);
    }

    /// Whether such rows stand beside the venue's numbers now: its journal hasn't been read since the venue came.
    bool isBeside() const { return !letter_.empty() && !isVenueThere_; }
    void venueIsThere(bool isThere) { isVenueThere_ = isThere; }

    /// Keeps that no report of this request will come, and that its member was told.
    void strike(long number);

    /// What its desk called it. A number of before the first is its own name, and one whose name is lost has one of
    /// the edge's own. So has one of a desk that the member doesn't have any more.
    std::string nameOf(long number) override;

    /// The desk that is told of this number: the one that sent it, and the first one where nobody knows.
    int deskOf(long number);
    bool isOfNoDesk(long number) override;

    /// The desk that sent it, also where the member doesn't have that desk any more: then another one is told of it. It
    /// is the first one where nobody knows.
    int ownerOf(long number);

    /// The number of a desk's name that went to the venue, or 0.
    long numberOf(const std::string &name, int desk);

    /// Whether a request of this name of a desk came before: one that went to the venue, or one that the edge refused.
    bool isKnown(const std::string &name, int desk);

    /// Whether the edge refused a request of this name, at whichever venue.
    bool wasRefused(const std::string &name, int desk) { return find(name, desk).wasRefused; }

    /// Whether a number of this venue that has no name goes by this one.
    bool isNameless(const std::string &name) { return own_.state().first > 1 && findNameless(name).number; }

    /// Notes that a report answers it.
    void answered(long number);

    /// Whether the edge gave this number, or has noted that somebody else did.
    bool has(long number);

    /// Notes that the venue has a request of this number, which has no name here.
    void note(long number);

    /// The journal has been read, so it is known which numbers are of a time before these names.
    void isRead();

    /// The requests that no report has answered, up to this number, the lowest first.
    std::vector<long> unanswered(long upTo);

    /// The names of the numbers from one to in front of another, each as `nameOf` has it. It is one look at the record,
    /// however many there are.
    std::vector<NamedNumber> namesOf(long from, long end);

    /// Which opening of the record they are of: behind another one the names may be others.
    long opening() const { return record_.opening(); }

    /// Whether a name of this number is kept, and of this kind.
    bool is(long number, Kind kind);
    bool isExpiry(long number) override { return is(number, Kind::Expiry); }
    bool isOfOperator(long number) override { return is(number, Kind::Operator); }

    /// The rows of sweeps, the first one first, and an end of one.
    std::vector<KeptSweep> sweeps();
    void forget(long number);

    long last() const { return own_.state().last; }

    /// What the record has of the venue.
    const VenueState &state() const { return own_.state(); }
    VenueState &change() { return own_.change(); }
    VenueRecord &own() { return own_; }

    /// Drops some names of requests that are finished and of before the last day of the session; `rests` says which
    /// orders aren't finished. It is called again and again, and does little each time.
    void drop(const std::function<bool(long)> &rests);

private:
    struct Found {
        long number = 0;                               // Of this venue; 0: the name isn't here.
        bool wasRefused = false, isElsewhere = false;  // The second one: it came to another venue.
    };

    long addBeside(const std::string &name, Kind kind, int desk);
    Found find(const std::string &name, int desk);
    Found findNameless(const std::string &name);
    Found foundAt(long place, char kind) const;
    bool isThere(long number);
    std::string wordOf(long number) const;
    std::string keptOf(long number);
    bool isOfDesk(const std::string &kept) const;
    NamedNumber named(const KeptName &it) const;

    // Names of the last numbers, so that a report needs no look at the record: each at the place of its number.
    struct Recent {
        long number = 0;
        std::string name;
    };

    static constexpr std::size_t RECENT = 1024;

    Recent &recentOf(long number);

    Record &record_;
    VenueRecord own_;
    const std::string letter_;
    std::vector<Recent> recent_{RECENT};
    long recentClosing_ = 0;  // Behind this one of the record they were written.
    long droppedTo_ = 0;
    bool isVenueThere_ = false;
    long beside_ = 0, besideClosing_ = 0;  // The greatest number beside those of the venue, and when it was looked for.
    Statement strike_, byNumber_, byName_, unanswered_, from_, range_, drop_, sweeps_, greatest_;
};

}
