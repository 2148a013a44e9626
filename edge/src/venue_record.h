#pragma once

// What a member's record keeps of one venue. names.h, trader.h and copies.h change how far requests and reports have
// come there by this.

#include "record.h"

namespace edge {

/// The part of a member's record that is of one venue, which is known by its place among those of the settings.
class VenueRecord {
public:
    VenueRecord(Record &record, std::size_t venue) : record_(record), venue_(venue) {}

    const VenueState &state() const { return record_.venue(venue_); }

    /// The same to be changed, within this turn.
    VenueState &change() { return record_.changeVenue(venue_); }

    /// Where the name of this number stands among those of the record, and which number of this venue stands there; 0
    /// where that place is another venue's.
    long place(long number) const { return record_.placeOfVenue(venue_) * NAMES + number; }
    long numberAt(long place) const { return place / NAMES == record_.placeOfVenue(venue_) ? place % NAMES : 0; }

    /// Whether it is the venue that the record has had first: its numbers are those of a member with one venue.
    bool isFirst() const { return !record_.placeOfVenue(venue_); }

    /// Whether the venue's journal hasn't been read to its end since the record was opened.
    bool isUnread() const { return record_.isUnread(venue_); }
    void isRead() { record_.isRead(venue_); }

    Record &ofMember() const { return record_; }

    /// So many places among the names of a record each venue has: more than a venue takes numbers.
    static constexpr long NAMES = 10000000000000000;

private:
    Record &record_;
    const std::size_t venue_;
};

}
