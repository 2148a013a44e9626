#include "record.h"

#include <quickfix/FieldConvertors.h>

#include <algorithm>
#include <cstdlib>
#include <cstdio>
#include <ctime>
#include <random>
#include <utility>

#include "files.h"
#include "lines.h"
#include "take_over.h"

namespace edge {

namespace {

constexpr long VERSION = 4;
// Versions of before, whose records lack these.
constexpr long WITHOUT_TURNS = 1, WITHOUT_SWITCHES = 2, WITHOUT_ENDS = 3;
// Those of records of members that have had several desks, and several venues: all others know nothing of these.
constexpr long WITH_DESKS = 5, WITH_VENUES = 6;

// A turn has its names and messages in the bytes of one row, as turns.h reads them, and what they change of the state.
const char *const TURNS =
    "CREATE TABLE turns (turn INTEGER PRIMARY KEY, at INTEGER NOT NULL, sender INTEGER NOT NULL,"
    " target INTEGER NOT NULL, report INTEGER NOT NULL, reject INTEGER NOT NULL, last INTEGER NOT NULL,"
    " heard INTEGER NOT NULL, settled INTEGER NOT NULL, did BLOB NOT NULL)";

// What an operator has switched off, as switches.h has it, and the rows of names that are of mass cancels.
const char *const SWITCHES =
    "CREATE TABLE IF NOT EXISTS switches (what TEXT PRIMARY KEY, at INTEGER NOT NULL, who TEXT NOT NULL);"
    "CREATE INDEX IF NOT EXISTS sweeps ON names (number) WHERE kind = 'w'";

// The kinds of names are those of Names::Kind. A name has more than one row where the edge refused a request of it.
const char *const TABLES =
    "CREATE TABLE names (number INTEGER PRIMARY KEY, kind TEXT NOT NULL, name TEXT NOT NULL, at INTEGER NOT NULL);"
    "CREATE INDEX by_name ON names (name);"
    "CREATE TABLE messages (number INTEGER PRIMARY KEY, bytes BLOB NOT NULL);"
    "CREATE TABLE session (sender INTEGER NOT NULL, target INTEGER NOT NULL, created TEXT NOT NULL,"
    " report INTEGER NOT NULL, reject INTEGER NOT NULL, first INTEGER NOT NULL, last INTEGER NOT NULL,"
    " heard INTEGER NOT NULL, spared INTEGER NOT NULL, settled INTEGER NOT NULL, doubted_at INTEGER NOT NULL,"
    " doubtful INTEGER NOT NULL, drop_before INTEGER NOT NULL, boot TEXT NOT NULL, at INTEGER NOT NULL,"
    " orders_ended INTEGER NOT NULL);"
    "INSERT INTO session VALUES (1, 1, '', 0, 0, 0, 0, 1, 0, 0, 0, 0, 0, '', 0, 0)";

// The sessions beside the first one. Their messages stand behind those of that one, and their names among all others,
// as desk_names.h has it. Of a turn that changed one of them its numbers are in the row of the turn.
const char *const DESKS =
    "CREATE TABLE IF NOT EXISTS desks (desk INTEGER PRIMARY KEY, sender INTEGER NOT NULL, target INTEGER NOT NULL,"
    " created TEXT NOT NULL, heard INTEGER NOT NULL, spared INTEGER NOT NULL, doubtful INTEGER NOT NULL);";

// The venues, by their places. What is kept of the one at place 0 is in the row of the first session; the names of the
// others stand behind those of that one, as venue_record.h has it. Of a turn that changed one of these its numbers are
// in the row of the turn.
const char *const VENUES =
    "CREATE TABLE IF NOT EXISTS venues (place INTEGER PRIMARY KEY, venue TEXT NOT NULL UNIQUE,"
    " report INTEGER NOT NULL, reject INTEGER NOT NULL, first INTEGER NOT NULL, last INTEGER NOT NULL,"
    " settled INTEGER NOT NULL, drop_before INTEGER NOT NULL, orders_ended INTEGER NOT NULL);";

const char *const READ_VENUES =
    "SELECT place, venue, report, reject, first, last, settled, drop_before, orders_ended FROM venues ORDER BY place";

const char *const READ_DESKS = "SELECT desk, sender, target, created, heard, spared, doubtful FROM desks";

const char *const READ =
    "SELECT sender, target, created, report, reject, first, last, heard, spared, settled, doubted_at, doubtful,"
    " drop_before, boot, at, orders_ended FROM session";

const char *const READ_TURNS =
    "SELECT at, sender, target, report, reject, last, heard, settled, did FROM turns ORDER BY turn";

// So many names and messages of turns go into the tables at a quiet moment, and so many at any, or where that has to
// be.
constexpr std::size_t MANY = 64, TOO_MANY = 512, FAR_TOO_MANY = 4096;

// So many bytes of the database's log go into its file at a quiet moment, and so many at any.
constexpr long LONG_LOG = 1 << 20, TOO_LONG_LOG = 2 << 20;

// A file is written to within its commit, or a moment later. One that was changed later than that was put there. A log
// that SQLite has made, and nothing was written to, tells nothing.
constexpr long MOMENT = 5;

constexpr long GREATEST_OPENING = 999999999999999;

// The name in the environment of the system's words for its run, as a service has them that doesn't see all of /proc.
constexpr const char *BOOT = "GIKVAND_BOOT";

/// The words that the system has for its run, from its start to its end, without their dashes.
std::string bootOfSystem() {
    const char *const given = std::getenv(BOOT);
    std::string words = given ? given : firstBytes("/proc/sys/kernel/random/boot_id");
    words.erase(std::min(words.find('\n'), words.size()));
    words.erase(std::remove(words.begin(), words.end(), '-'), words.end());
    return words;
}

}

Record::Record(const std::string &path, const std::string &member, const Before &before, const std::set<int> &desks,
               const std::vector<std::string> &venues, const std::string &first)
    : database_(path),
      member_(member),
      before_(before),
      desks_(desks),
      letters_(venues),
      first_(first),
      isUnread_(venues.size(), true) {
    for (const int desk : desks_) others_[desk];
    forgetVenues();
}

/// Does this with each session that the record has, and its desk.
template <class Act>
void Record::eachSession(const Act &act) {
    act(FIRST_DESK, static_cast<SessionState &>(state_));
    for (auto &it : others_)
        if (it.second.isThere) act(it.first, it.second.now);
}

void Record::open() {
    close();
    if (wasOpen_ && !isThere(database_.path())) database_.fail("it isn't there any more");
    const long changed = std::max(changeTime(database_.path()), changeTime(database_.path() + "-wal"));
    database_.open();
    std::random_device chance;
    opening_ = std::uniform_int_distribution<long>(1, GREATEST_OPENING)(chance);
    isUnread_.assign(letters_.size(), true);
    isOfThisRun_ = hasLetOn_ = hasBegunAnew_ = false;
    stepped_.clear();
    try {
        boot_ = bootOfSystem();
        Statement version(database_, "PRAGMA user_version");
        Rows rows = version.of();
        const long found = rows.next() ? rows.number(0) : 0;
        const bool hasDesks = found == WITH_DESKS || found == WITH_VENUES;
        version_ = hasDesks ? found : VERSION;
        if (found && !hasDesks && found != VERSION && found != WITHOUT_TURNS && found != WITHOUT_SWITCHES &&
            found != WITHOUT_ENDS)
            database_.fail("it is of another version of the edge");
        if (found && !hasDesks && found != VERSION) addTables(found);
        if (found) look(changed, hasDesks);
        else make();
        addDesks();
        addVenues();
    } catch (const DatabaseFault &) {
        close();
        forgetVenues();  // Of which some may have been read.
        throw;
    }
    wasOpen_ = true;
    opened_ = state_;
    for (auto &it : venues_) it.second.before = it.second.now;
    eachSession([this](int desk, const SessionState &it) { sentBefore_[desk] = it.sender; });
}

/// Lets sessions begin that the record doesn't have yet: from the next commit on it is one of several desks. Who only
/// looks commits nothing.
void Record::addDesks() {
    std::string rows;
    for (const int desk : desks_) {
        Other &it = others_[desk];
        if (it.isThere) continue;
        it.isThere = true;
        it.now = it.kept = it.written = SessionState();
        say(deskName(member_, desk), "its numbers begin with 1: the record knows nothing of this desk");
        rows += "INSERT INTO desks VALUES (" + std::to_string(desk) + ", 1, 1, '" +
                FIX::UtcTimeStampConvertor::convert(it.now.created) + "', 1, 0, 0);";
    }
    if (rows.empty()) return;
    version_ = std::max(version_, WITH_DESKS);
    changeTables();
    database_.run(std::string(DESKS) + rows + "PRAGMA user_version = " + std::to_string(version_));
}

/// The letters of all venues that the record has.
std::string Record::venueWords() const {
    std::string words = firstLetter_;
    for (const auto &it : venues_) words += " " + it.second.letter;
    return words;
}

/// Gives a venue of the settings its place in the record: the row of one that the record doesn't have, or nothing.
std::string Record::placed(std::size_t venue) {
    const std::string &letter = letters_[venue];
    const auto known =
        std::find_if(venues_.begin(), venues_.end(), [&letter](const auto &it) { return it.second.letter == letter; });
    const bool isFirst = letter == firstLetter_, isKnown = known != venues_.end();
    const long next = venues_.empty() ? 1 : venues_.rbegin()->first + 1;
    const long place = places_[venue] = isFirst ? 0 : isKnown ? known->first : next;
    if (isFirst || isKnown) return "";
    venues_[place].letter = letter;
    say(member_, "its requests at the venue " + letter + " begin with 1: the record knows nothing of this venue");
    return "INSERT INTO venues VALUES (" + std::to_string(place) + ", '" + letter + "', 0, 0, 0, 0, 0, 0, 0);";
}

/// Finds the venues of the settings in the record. One without letters is of the first of them from then on.
void Record::addVenues() {
    const bool isNew = firstLetter_.empty();
    if (letters_ == std::vector<std::string>{""}) {
        if (isNew) return;
        database_.fail("it is of the venues " + venueWords() +
                       ", and settings without Venues don't say which they mean");
    }
    std::string rows;
    if (isNew) {
        firstLetter_ = first_;
        venues_.clear();
        rows = "INSERT INTO venues VALUES (0, '" + firstLetter_ + "', 0, 0, 0, 0, 0, 0, 0);";
    }
    for (std::size_t at = 0; at < letters_.size(); at++) rows += placed(at);
    if (rows.empty()) return;
    version_ = WITH_VENUES;
    changeTables();
    database_.run(std::string(DESKS) + VENUES + rows + "PRAGMA user_version = " + std::to_string(version_));
}

/// Gives a record of this version of before the tables that it lacks. What rests by it ends with the next day: none of
/// its members could ask for more.
void Record::addTables(long version) {
    database_.run(std::string("BEGIN; ") + (version == WITHOUT_TURNS ? TURNS : "") + "; " + SWITCHES +
                  "; ALTER TABLE session ADD COLUMN orders_ended INTEGER NOT NULL DEFAULT " +
                  std::to_string(std::time(nullptr)) + "; PRAGMA user_version = " + std::to_string(VERSION) +
                  "; COMMIT");
}

/// A process that ended within this may have made the file, and its folder, and synced neither: so each one that makes
/// the record syncs them, in front of the commit that no later one makes again.
void Record::make() {
    say(member_, database_.path() + " is made: no name of before is known, and numbers begin with 1");
    begin_.run();
    isChanging_ = areTablesChanging_ = true;
    database_.run(TABLES);
    database_.run(TURNS);
    database_.run(SWITCHES);
    state_ = State();
    forgetDesks();
    forgetVenues();
    const bool tookOver = takeOver(before_, member_, database_, state_);
    if (tookOver) state_.ordersEnded = std::time(nullptr);  // As of a record of before.
    database_.run("PRAGMA user_version = " + std::to_string(VERSION));
    try {
        syncFoldersOf(database_.path());
    } catch (const std::runtime_error &why) {
        database_.fail(why.what());
    }
    commit();
    if (tookOver) putAside(before_);
}

/// Reads the state, and looks whether something may be missing behind it.
void Record::look(long changed, bool hasDesks) {
    Statement damage(database_, "PRAGMA quick_check(1)"), row(database_, READ);
    if (!wasOpen_) {
        Rows rows = damage.of();
        if (!rows.next() || rows.bytes(0) != "ok") database_.fail("it is damaged: put a copy back");
    }
    Rows rows = row.of();
    if (!rows.next()) database_.fail("it is damaged, and has no session: put a copy back");
    state_.sender = rows.number(0);
    state_.target = rows.number(1);
    state_.created = FIX::UtcTimeStampConvertor::convert(rows.bytes(2));
    state_.told.report = rows.number(3);
    state_.told.reject = rows.number(4);
    state_.first = rows.number(5);
    state_.last = rows.number(6);
    state_.heard = rows.number(7);
    state_.isSpared = rows.number(8);
    state_.settled = rows.number(9);
    state_.doubtedAt = rows.number(10);
    state_.isDoubtful = rows.number(11);
    state_.dropBefore = rows.number(12);
    state_.ordersEnded = rows.number(15);
    written_ = state_;
    const std::string boot = rows.bytes(13);
    long at = rows.number(14);
    forgetDesks();
    if (hasDesks) lookAtDesks();
    forgetVenues();
    if (version_ == WITH_VENUES) lookAtVenues();
    lookAtTurns(at);
    if (boot_.empty() || boot != boot_) step("the system was started anew");
    else if (changed > at + MOMENT) step("its file was put there behind its last commit");
}

/// Sessions beside the first one have to be read, or begun: none is known.
void Record::forgetDesks() {
    others_.clear();
    for (const int desk : desks_) others_[desk] = Other();
}

/// Reads the sessions beside the first one, also those of desks that the settings don't have any more.
void Record::lookAtDesks() {
    Statement all(database_, READ_DESKS);
    for (Rows rows = all.of(); rows.next();) {
        SessionState it;
        it.sender = rows.number(1);
        it.target = rows.number(2);
        it.created = FIX::UtcTimeStampConvertor::convert(rows.bytes(3));
        it.heard = rows.number(4);
        it.isSpared = rows.number(5);
        it.isDoubtful = rows.number(6);
        others_[static_cast<int>(rows.number(0))] = {it, it, it, true};
    }
}

/// Each venue has to be found in the record: until then it is taken for the one of its place among the settings.
void Record::forgetVenues() {
    firstLetter_.clear();
    venues_.clear();
    places_.clear();
    for (std::size_t at = 0; at < letters_.size(); at++) {
        places_.push_back(static_cast<long>(at));
        if (at) venues_[static_cast<long>(at)];
    }
}

/// Reads the venues, also those that the settings don't have any more.
void Record::lookAtVenues() {
    venues_.clear();
    Statement all(database_, READ_VENUES);
    for (Rows rows = all.of(); rows.next();) {
        const long place = rows.number(0);
        if (!place) {
            firstLetter_ = rows.bytes(1);
            continue;
        }
        VenueState it;
        it.told = {rows.number(2), rows.number(3)};
        it.first = rows.number(4);
        it.last = rows.number(5);
        it.settled = rows.number(6);
        it.dropBefore = rows.number(7);
        it.ordersEnded = rows.number(8);
        venues_[place] = {rows.bytes(1), it, it, it, it};
    }
    if (firstLetter_.empty()) database_.fail("it is damaged, and has no first venue: put a copy back");
}

/// Takes in the numbers that a turn has kept of a desk's session, or of a venue. Whether they can be read.
bool Record::takeNumbers(bool isOfVenue, long place, const std::string &text) {
    if (isOfVenue) {
        VenueState &it = venues_[place].now;
        return std::sscanf(text.c_str(), "%ld %ld %ld %ld", &it.told.report, &it.told.reject, &it.last, &it.settled) ==
               4;
    }
    SessionState &it = others_[static_cast<int>(place)].now;
    return std::sscanf(text.c_str(), "%ld %ld %ld", &it.sender, &it.target, &it.heard) == 3;
}

/// Reads what turns have kept behind the state of the tables, and in which second the last one was.
void Record::lookAtTurns(long &at) {
    Statement all(database_, READ_TURNS);
    for (Rows rows = all.of(); rows.next();) {
        at = rows.number(0);
        state_.sender = rows.number(1);
        state_.target = rows.number(2);
        state_.told.report = rows.number(3);
        state_.told.reject = rows.number(4);
        state_.last = rows.number(5);
        state_.heard = rows.number(6);
        state_.settled = rows.number(7);
        const auto take = [this](bool isOfVenue, long place, const std::string &text) {
            return takeNumbers(isOfVenue, place, text);
        };
        if (!turns_.take(rows.bytes(8), at, take))
            database_.fail("it is damaged, and a turn can't be read: put a copy back");
    }
    for (auto &it : others_) it.second.kept = it.second.now;
    for (auto &it : venues_) it.second.kept = it.second.now;
}

void Record::step(const std::string &why) {
    change();
    std::string lines;
    eachSession([&](int desk, SessionState &it) {
        if (!stepped_.insert(desk).second) return;
        it.sender += STEP;
        if (!hasDesk(desk)) return;
        const std::string line = "its next number is " + std::to_string(it.sender) + ", behind a gap of " +
                                 std::to_string(STEP) + ", since messages may be lost: " + why;
        if (saidOfStep_.find(line) == std::string::npos) say(deskName(member_, desk), line);
        lines += line + "\n";
    });
    saidOfStep_ = lines;
}

/// Whether no engine has sent anything since names were lost but what it says to be sent again.
bool Record::areAllDoubtful() const {
    return state_.isDoubtful && std::all_of(others_.begin(), others_.end(), [](const std::pair<const int, Other> &it) {
               return it.second.now.isDoubtful;
           });
}

/// Whether the numbers of each session have gone up since it was opened.
bool Record::haveAllStepped() {
    bool haveAll = true;
    eachSession([&](int desk, SessionState &) { haveAll = haveAll && stepped_.count(desk); });
    return haveAll;
}

bool Record::stepsBack() {
    State &state = change();
    changeTables();
    const bool steps = !haveAllStepped() && !areAllDoubtful();
    eachSession([](int, SessionState &it) { it.isDoubtful = true; });
    state.doubtedAt = std::time(nullptr);
    if (!steps || hasLetOn_) return false;
    if (!hasBegunAnew_) takeBack();
    step("the journal has requests that it lacks");
    commit();
    return true;
}

void Record::takeBack() {
    eachSession([this](int desk, SessionState &it) {
        if (!hasDesk(desk)) return;  // It was told nothing, and may have a backlog that is to be told again.
        const long before = sentBefore_[desk];
        database_.run("DELETE FROM messages WHERE number >= " + std::to_string(placeOf(desk, before)) +
                      " AND number < " + std::to_string(placeOf(desk + 1, 0)));
        it.sender = before;
    });
    state_.told = opened_.told;
    if (!firstLetter_.empty()) state_.settled = opened_.settled;  // Another venue may have answered since.
    for (auto &it : venues_) {
        it.second.now.told = it.second.before.told;
        it.second.now.settled = it.second.before.settled;
    }
}

void Record::close() {
    isChanging_ = areTablesChanging_ = false;
    closings_++;
    turns_.clear();
    database_.close();
}

void Record::finish() {
    if (!database_.isOpen()) return;
    change();  // For the time of its end.
    changeTables();
    commit();
    database_.closeWhole();
}

State &Record::change() {
    if (!database_.isOpen()) database_.fail("it isn't open");
    isChanging_ = true;
    return state_;
}

SessionState &Record::changeSession(int desk) {
    State &first = change();
    return desk == FIRST_DESK ? first : others_.at(desk).now;
}

VenueState &Record::changeVenue(std::size_t at) {
    State &first = change();
    return places_[at] ? otherVenue(at).now : first;
}

void Record::dropNamesBefore(long second) {
    change().dropBefore = second;
    for (auto &it : venues_) it.second.now.dropBefore = second;
}

void Record::changeTables() {
    change();
    if (areTablesChanging_) return;
    begin_.run();
    areTablesChanging_ = true;
    turns_.each([this](const KeptName &it) { addName_.run(it.number, std::string(1, it.kind), it.name, it.at); },
                [this](long place, const std::string &bytes) { putMessage_.run(place, Blob{bytes}); });
    forgetTurns_.run();
    turns_.clear();
}

void Record::add(KeptName it) {
    change();
    if (areTablesChanging_) addName_.run(it.number, std::string(1, it.kind), it.name, it.at);
    else turns_.add(std::move(it));
}

void Record::put(long place, const std::string &bytes) {
    change();
    if (areTablesChanging_) putMessage_.run(place, Blob{bytes});
    else turns_.put(place, bytes);
}

bool Record::isUntidy() const {
    return turns_.size() >= MANY || database_.logged() >= LONG_LOG;
}

bool Record::isVeryUntidy(bool isUrgent) const {
    return turns_.size() >= (isUrgent ? FAR_TOO_MANY : TOO_MANY) || database_.logged() >= TOO_LONG_LOG;
}

void Record::tidy() {
    if (turns_.size() >= MANY) {
        changeTables();
        commit();
    }
    if (database_.logged() >= LONG_LOG) database_.shortenLog();
}

/// The text changes once a day: each commit has it.
const std::string &Record::createdText() {
    if (createdText_.empty() || createdOfText_ != state_.created)
        createdText_ = FIX::UtcTimeStampConvertor::convert(createdOfText_ = state_.created);
    return createdText_;
}

/// Whether what has changed of the state is in the row of a turn.
bool Record::isOneRow() const {
    const auto isAsWritten = [](const std::pair<const int, Other> &it) {
        return it.second.now.hasRestOf(it.second.written);
    };
    const auto isVenueAsWritten = [](const std::pair<const long, OtherVenue> &it) {
        return it.second.now.hasRestOf(it.second.written);
    };
    return isOfThisRun_ && state_.SessionState::hasRestOf(written_) &&
           std::all_of(others_.begin(), others_.end(), isAsWritten) &&
           std::all_of(venues_.begin(), venues_.end(), isVenueAsWritten) && state_.first == written_.first &&
           state_.doubtedAt == written_.doubtedAt && state_.dropBefore == written_.dropBefore &&
           state_.ordersEnded == written_.ordersEnded;
}

/// Puts the numbers of sessions and of venues beside the first ones into the row of the present turn, where this has
/// changed them.
void Record::keepNumbers() {
    for (auto &it : others_) {
        const SessionState &now = it.second.now;
        if (now.hasNumbersOf(it.second.kept)) continue;
        turns_.putNumbers(
            it.first, std::to_string(now.sender) + " " + std::to_string(now.target) + " " + std::to_string(now.heard));
        it.second.kept = now;
    }
    for (auto &it : venues_) {
        const VenueState &now = it.second.now;
        if (now.hasNumbersOf(it.second.kept)) continue;
        turns_.putVenue(it.first, std::to_string(now.told.report) + " " + std::to_string(now.told.reject) + " " +
                                      std::to_string(now.last) + " " + std::to_string(now.settled));
        it.second.kept = now;
    }
}

void Record::writeState() {
    write_.run(state_.sender, state_.target, createdText(), state_.told.report, state_.told.reject, state_.first,
               state_.last, state_.heard, static_cast<long>(state_.isSpared), state_.settled, state_.doubtedAt,
               static_cast<long>(state_.isDoubtful), state_.dropBefore, state_.ordersEnded, boot_,
               static_cast<long>(std::time(nullptr)));
    for (auto &it : others_) {
        const SessionState &now = it.second.now;
        if (!it.second.isThere) continue;
        if (!now.hasNumbersOf(it.second.written) || !now.hasRestOf(it.second.written))
            writeDesk_.run(now.sender, now.target, FIX::UtcTimeStampConvertor::convert(now.created), now.heard,
                           static_cast<long>(now.isSpared), static_cast<long>(now.isDoubtful),
                           static_cast<long>(it.first));
    }
    for (auto &it : venues_) {
        const VenueState &now = it.second.now;
        if (firstLetter_.empty() || (now.hasNumbersOf(it.second.written) && now.hasRestOf(it.second.written))) continue;
        writeVenue_.run(now.told.report, now.told.reject, now.first, now.last, now.settled, now.dropBefore,
                        now.ordersEnded, it.first);
    }
    commit_.run();
    areTablesChanging_ = false;
    isOfThisRun_ = true;
    written_ = state_;
    for (auto &it : others_) it.second.kept = it.second.written = it.second.now;
    for (auto &it : venues_) it.second.kept = it.second.written = it.second.now;
}

void Record::commit() {
    if (!isChanging_) return;
    if (!areTablesChanging_ && !isOneRow()) changeTables();
    if (areTablesChanging_) {
        writeState();
    } else {
        keepNumbers();
        keepTurn_.run(turns_.rows() + 1, static_cast<long>(std::time(nullptr)), state_.sender, state_.target,
                      state_.told.report, state_.told.reject, state_.last, state_.heard, state_.settled,
                      Blob{turns_.present()});
        turns_.kept();
    }
    isChanging_ = false;
}

}
