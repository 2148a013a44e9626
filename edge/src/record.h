#pragma once

// What is kept of a member, and when it is on the disk. Each message's turn writes here, through names.h and store.h,
// and member.cpp commits that before it lets go what rests on it.

#include <cstddef>
#include <map>
#include <set>
#include <string>
#include <vector>

#include "database.h"
#include "desk_names.h"
#include "state.h"
#include "take_over.h"
#include "turns.h"

namespace edge {

/// All that is kept of a member, in one database. What a turn changes is committed in one go, and nothing that rests on
/// it may be told before. A turn that adds names and messages alone is one row of its own, and such rows go into the
/// tables of names and messages at a quiet moment. Any other turn changes the tables, which have all rows by then.
class Record {
public:
    /// So many numbers of a session are passed over where messages may have been lost with the end of a record: more
    /// than a member can have been told of them.
    static constexpr long STEP = 1000;

    /// Of a member that has these desks beside its first one, and trades at the venues of these letters; or at one
    /// venue that has none. A record without letters is of the first of these then.
    Record(const std::string &path, const std::string &member, const Before &before, const std::set<int> &desks,
           const std::vector<std::string> &venues, const std::string &first);

    /// Reads what was committed. Throws DatabaseFault where that can't be done.
    void open();

    /// Ends the use of the database: what wasn't committed is lost.
    void close();

    /// Ends it in order.
    void finish();

    const State &state() const { return state_; }

    /// The same to be changed, within this turn.
    State &change();

    /// The session of a desk, and the same to be changed.
    const SessionState &session(int desk) const { return desk == FIRST_DESK ? state_ : others_.at(desk).now; }
    SessionState &changeSession(int desk);

    /// What is kept of a venue, by its place among those of the settings, and the same to be changed.
    const VenueState &venue(std::size_t at) const { return places_[at] ? otherVenue(at).now : state_; }
    VenueState &changeVenue(std::size_t at);

    /// The place of a venue among those of the record: 0 of the first one that it has had.
    long placeOfVenue(std::size_t venue) const { return places_[venue]; }

    /// Names of finished requests of before this second may go, at all venues.
    void dropNamesBefore(long second);

    /// Whether there is this desk, and whether the member has had others than the first one.
    bool hasDesk(int desk) const { return desk == FIRST_DESK || desks_.count(desk); }
    bool hasHadDesks() const { return !others_.empty(); }

    /// Keeps a name of this number, which is above all others, or a message of a session, at its place.
    void add(KeptName it);
    void put(long place, const std::string &bytes);

    /// Lets this turn change the tables: the transaction begins here, and what turns have kept by then is put there.
    void changeTables();

    /// Lets the tables be read: where they lack something of turns, this turn puts it there.
    void fillTables() {
        if (turns_.size()) changeTables();
    }

    /// What the tables lack.
    const Turns &turns() const { return turns_; }

    /// Commits what was changed, if something was.
    void commit();
    bool isChanging() const { return isChanging_; }

    /// Whether there is something to be tidied up at a quiet moment, or so much that it can't wait for one, or for the
    /// end of something that is urgent.
    bool isUntidy() const;
    bool isVeryUntidy(bool isUrgent = false) const;

    /// Puts into the tables what turns have kept, and the database's own log into its file, each where that is much.
    void tidy();

    /// Whether a venue's journal hasn't been read to its end since this was opened.
    bool isUnread(std::size_t venue) const { return isUnread_[venue]; }
    void isRead(std::size_t venue) { isUnread_[venue] = false; }

    /// The journal of a venue has what this lacks: an older copy, perhaps. Where nothing has shown that before, takes
    /// back what was told since this was opened, which has not left the edge, and steps with each session that hasn't
    /// gone up since: whether that was done, and the journals are to be read anew. Where an engine was let on since, it
    /// isn't done. Behind new numbers of a member with several venues nothing is taken back, and all else is done.
    bool stepsBack();

    /// An engine is let on: what was told since this was opened may leave the edge.
    void letsOn() { hasLetOn_ = true; }

    /// Whether that may yet be taken back, as something was told since this was opened, and the journal isn't read to
    /// its end: no numbers of a session begin anew or go up before that is, or it would be told in both. Of several
    /// venues one may come days later: with new numbers nothing is taken back any more.
    bool mayTakeBack() const { return letters_.size() == 1 && isUnread_[0] && !(state_.told == opened_.told); }

    /// The numbers of a session have begun anew: what comes from here on is what `stepsBack` takes back.
    void numbersBegan(int desk) {
        sentBefore_[desk] = session(desk).sender;
        hasBegunAnew_ = letters_.size() > 1;
    }

    /// The numbers of a session have gone up, as an operator has set them: what the session is told from here on stands
    /// behind a gap as it is. Those of the others stay.
    void wentUp(int desk) {
        stepped_.insert(desk);
        sentBefore_[desk] = session(desk).sender;
    }

    /// A number of the last time that it was opened, which no other time has: it may have been another record then.
    long opening() const { return opening_; }

    /// So often it was closed: what wasn't committed by then is lost.
    long closings() const { return closings_; }

    Database &database() { return database_; }

private:
    /// A session beside the first one: as it is, as the last commit has it, and as its table does.
    struct Other {
        SessionState now, kept, written;
        bool isThere = false;  // The record has it.
    };

    /// A venue beside the first one: as it is, as the last commit has it, and as its table does.
    struct OtherVenue {
        std::string letter;
        VenueState now, kept, written;
        VenueState before;  // When the record was opened.
    };

    void make();
    void addTables(long version);
    void look(long changed, bool hasDesks);
    void forgetDesks();
    void lookAtDesks();
    void forgetVenues();
    void lookAtVenues();
    void lookAtTurns(long &at);
    void addDesks();
    void addVenues();
    std::string placed(std::size_t venue);
    std::string venueWords() const;
    OtherVenue &otherVenue(std::size_t at) { return venues_.at(places_[at]); }
    const OtherVenue &otherVenue(std::size_t at) const { return venues_.at(places_[at]); }
    bool takeNumbers(bool isOfVenue, long place, const std::string &text);
    void step(const std::string &why);
    void takeBack();
    bool areAllDoubtful() const;
    bool haveAllStepped();
    template <class Act>
    void eachSession(const Act &act);
    bool isOneRow() const;
    void keepNumbers();
    void writeState();
    const std::string &createdText();

    Database database_;
    const std::string member_;
    const Before before_;
    const std::set<int> desks_;
    const std::vector<std::string> letters_;  // Of the venues of the settings,
    const std::string first_;                 // and of the one that a record without letters is of.
    State state_, written_;                   // The second one as the table of it has it.
    std::map<int, Other> others_;
    std::map<long, OtherVenue> venues_;  // By their places, from 1 on.
    std::string firstLetter_;            // That of the venue at place 0; empty: the record has no letters.
    std::vector<long> places_;           // Of the venues of the settings.
    Turns turns_;
    VenueState opened_;  // What it had of the venue at place 0, when it was opened.
    std::map<int, long> sentBefore_;
    std::set<int> stepped_;  // The desks whose numbers have gone up since it was opened: none does so twice.
    long opening_ = 0, closings_ = 0;
    FIX::UtcTimeStamp createdOfText_;
    std::string createdText_, boot_, saidOfStep_;
    long version_ = 0;
    std::vector<bool> isUnread_;  // Of the journals of the venues.
    bool isChanging_ = false, wasOpen_ = false;
    bool hasLetOn_ = false;           // An engine, since the record was opened.
    bool hasBegunAnew_ = false;       // The numbers of a session, since then, of a member with several venues.
    bool areTablesChanging_ = false;  // By this turn.
    bool isOfThisRun_ = false;        // The state that is written has the words of this run of the system.
    Statement begin_{database_, "BEGIN IMMEDIATE"}, commit_{database_, "COMMIT"};
    Statement addName_{database_, "INSERT INTO names VALUES (?, ?, ?, ?)"};
    Statement putMessage_{database_, "INSERT OR REPLACE INTO messages VALUES (?, ?)"};
    Statement keepTurn_{database_, "INSERT INTO turns VALUES (?, ?, ?, ?, ?, ?, ?, ?, ?, ?)"};
    Statement forgetTurns_{database_, "DELETE FROM turns"};
    Statement writeDesk_{database_,
                         "UPDATE desks SET sender = ?, target = ?, created = ?, heard = ?, spared = ?, doubtful = ?"
                         " WHERE desk = ?"};
    Statement writeVenue_{database_,
                          "UPDATE venues SET report = ?, reject = ?, first = ?, last = ?, settled = ?, drop_before = ?,"
                          " orders_ended = ? WHERE place = ?"};
    Statement write_{database_,
                     "UPDATE session SET sender = ?, target = ?, created = ?, report = ?, reject = ?, first = ?,"
                     " last = ?, heard = ?, spared = ?, settled = ?, doubted_at = ?, doubtful = ?, drop_before = ?,"
                     " orders_ended = ?, boot = ?, at = ? WHERE rowid = 1"};
};

}
