#include "copies.h"

#include <algorithm>
#include <map>
#include <stdexcept>

#include "event_line.h"
#include "lines.h"

namespace edge {

namespace {

constexpr std::chrono::milliseconds SOON(20), REST(1000), MOST_REST(30000);
constexpr int MOST_LOOKS = 16;               // At the journal in one turn.
constexpr int MOST_AT_ONCE = 256;            // Reports that are told in one turn.
constexpr std::chrono::seconds LASTS(10);    // What has read the journal for so long reads it.
constexpr std::chrono::seconds PATIENCE(1);  // With a member of whom as much is held as may be,
constexpr std::size_t LEAST_TOLD = 256;      // as long as so many of that can be told meanwhile.

bool isReadable(int fd) {
    pollfd it{fd, POLLIN, 0};
    return ::poll(&it, 1, 0) > 0;
}

/// The name of a member as the settings say that it is told.
std::string withName(const std::string &compId, CopyNames names, const std::string &body) {
    switch (names) {
        case CopyNames::OnBehalfOf: return "115=" + compId + "\1" + body;
        case CopyNames::DeliverTo: return "128=" + compId + "\1" + body;
        case CopyNames::Parties: break;
    }
    return body + "453=1\001448=" + compId + "\001447=D\001452=1\1";
}

}

constexpr std::size_t Copies::MOST_MEMBERS, Copies::MOST_HELD;

Copies::Copies(const Settings &settings, std::size_t at, Record &record, Teller &teller, ReplayTurn &turn)
    : settings_(settings),
      place_(settings.venues[at]),
      record_(record),
      own_(record, at),
      teller_(teller),
      turn_(turn),
      room_(settings.folder, settings.diskReserve),
      quota_({settings.folder, settings.logFolder}, settings.folderBytes),
      make_(record.database(), "CREATE TABLE IF NOT EXISTS copies (member TEXT PRIMARY KEY, report INTEGER NOT NULL)"),
      read_(record.database(), "SELECT member, report FROM copies"),
      put_(record.database(), "INSERT OR REPLACE INTO copies VALUES (?, ?)") {
    for (const CopiedMember &it : settings.member.copied) all_.emplace_back(it, settings, place_.letter);
}

void Copies::drop() {
    reader_.reset();
    turn_.giveBack();
    isWhole_ = hasMore_ = false;
}

void Copies::attach() {
    drop();
    again_ = std::chrono::milliseconds(0);
    for (Of &it : all_) {
        it.held.clear();
        it.told = it.kept = it.command = it.greatest = 0;
        it.isBehind = it.isSlow = false;
    }
    make_.run();
    std::map<std::string, long> told;
    for (Rows rows = read_.of(); rows.next();) told[rows.bytes(0)] = rows.number(1);
    for (Of &it : all_) it.told = it.kept = told[keyOf(it.name)];
    for (Of &it : all_) {
        it.hasSeenTold = !it.told;
        last_ = std::max(last_.load(), it.told);
    }
}

/// What a member is called in the record: with the venue's letter, but for the first venue that the record has had.
std::string Copies::keyOf(const std::string &member) const {
    return own_.isFirst() ? member : member + "." + place_.letter;
}

Copies::Of *Copies::find(const std::string &name) {
    const auto found = std::find_if(all_.begin(), all_.end(), [&name](const Of &it) { return it.name == name; });
    return found == all_.end() ? nullptr : &*found;
}

/// First the journal is read to its end, so that it is known to have what was told; then it is followed.
bool Copies::drive() {
    if (reader_) return true;
    if (Clock::now() < readAt_ || (!isWhole_ && !turn_.tryTake())) return false;
    try {
        reader_.reset(new Replay(place_, settings_.member.name(), isWhole_ ? command_ : Replay::ONCE));
        readSince_ = Clock::now();
    } catch (const std::runtime_error &fault) {
        lose(fault.what());
    }
    return reader_ != nullptr;
}

/// Begins anew soon: with what comes behind the last command, or with all where that isn't known.
void Copies::lose(const std::string &why) {
    if (reader_ && Clock::now() - readSince_ >= LASTS) reads();
    isCutOff_ = true;
    if (saidOfReader_ != why)
        say(settings_.member.name(), (place_.letter.empty() ? "" : place_.letter + " ") +
                                         "the journal isn't read, and that begins anew: " + why);
    saidOfReader_ = why;
    reader_.reset();
    turn_.giveBack();
    const bool isAlone = isWhole_ || place_.letter.empty();  // Else its readings keep those of other venues waiting.
    again_ = isAlone || !again_.count() ? REST : std::min(2 * again_, MOST_REST);
    readAt_ = Clock::now() + again_;
}

/// The journal is read: an end of that would be another one.
void Copies::reads() {
    saidOfReader_.clear();
    isCutOff_ = false;
}

/// Whether as much is held as may be, and can be told soon, once there is room: no more is read meanwhile.
bool Copies::isFull() const {
    return isWhole_ && std::any_of(all_.begin(), all_.end(), [](const Of &it) {
               return it.held.size() >= MOST_HELD && it.asker.away().empty() && !it.isSlow;
           });
}

Copies::Polled Copies::watched() const {
    Polled all;
    all.fill({-1, 0, 0});
    if (reader_ && !isFull()) all[0] = {reader_->fd(), POLLIN, 0};
    std::size_t at = 1;
    for (const Of &it : all_) all[at++] = {it.asker.fd(), POLLIN, 0};
    return all;
}

std::chrono::milliseconds Copies::pause(std::chrono::milliseconds most, bool hasRoom) const {
    if (hasMore_ && hasRoom) return std::chrono::milliseconds(0);
    auto pause = most;
    for (const Of &it : all_) pause = it.held.empty() ? pause : it.asker.pause(pause);
    return !reader_ || reader_->isOver() ? std::min(pause, SOON) : pause;
}

void Copies::read() {
    for (Of &it : all_) it.asker.look();
    if (!reader_) return;
    if (isCutOff_ && Clock::now() - readSince_ >= LASTS) reads();
    try {
        const Replay::Told seen = [this](const char *line, std::size_t size) { take(line, size); };
        bool isOver = false;
        for (int looks = 0;
             looks < MOST_LOOKS && !isOver && !isFull() && (reader_->isOver() || isReadable(reader_->fd())); looks++)
            isOver = reader_->read([](const char *, std::size_t) {}, seen);
        if (!isOver) return goBack();
    } catch (const std::runtime_error &fault) {
        return lose(fault.what());
    }
    if (isWhole_) return lose("venue-events ended");
    for (const Of &it : all_) needTold(it);
    turn_.giveBack();
    reader_.reset();
    isWhole_ = true;
    again_ = std::chrono::milliseconds(0);
    reads();
}

void Copies::needTold(const Of &of) const {
    if (!of.hasSeenTold)
        throw VenueFault("its store has report " + std::to_string(of.told) + " of " + of.name +
                         ", which the journal hasn't: that is another journal, or an older copy");
}

/// A line of venue-events.
void Copies::take(const char *line, std::size_t size) {
    EventLine it(line, size);
    if (isWhole_ && isCutOff_) reads();
    if (it.is("command")) command_ = std::max(0L, it.number());
    else if (it.is("output")) takeOutput(it.rest(), it.size());
}

/// What stands behind the first word of an output: its place, the member, and the report with bars. What is held or was
/// told is passed over, and so is what can't be held.
void Copies::takeOutput(const char *from, std::size_t size) {
    EventLine it(from, size);
    it.word();
    Of *const of = find(it.word());
    if (!of) return;
    const Fields report(it.rest(), it.size(), '|');
    const long number = report.number(17);
    if (report.byte(35) != '8' || !number) return;
    if (!place_.letter.empty() && !place_.trades(report.text(55))) return;  // Of another venue, as trader.cpp says.
    for (const int tag : {41, 11}) of->greatest = std::max(of->greatest, report.number(tag));
    if (number == of->told) of->hasSeenTold = true;
    if (number <= (of->held.empty() ? of->told : of->held.back().report)) return;
    if (!of->isBehind && of->held.size() >= 2 * MOST_HELD) of->isBehind = true;
    if (of->isBehind) return;
    of->held.push_back({number, command_, report.bytes()});
    of->command = command_;
}

/// Where all that was held of a member is told, what couldn't be held is read again.
void Copies::goBack() {
    bool goes = false;
    long command = command_;
    for (Of &it : all_) {
        if (!isWhole_ || !it.isBehind || !it.held.empty()) continue;
        it.isBehind = false;
        goes = true;
        command = std::min(command, it.command);
    }
    if (!goes) return;
    command_ = command;
    reader_.reset();
}

/// Whether the names that the next report of a member has are there; else they are asked for.
bool Copies::isNamed(Of &of) const {
    const Fields report(of.held.front().text.data(), of.held.front().text.size(), '|');
    for (const int tag : {41, 11}) {
        const long number = report.number(tag);
        if (!number || of.asker.has(number)) continue;
        of.asker.ask(number, of.greatest);
        of.waiting = of.asker.away().empty() && !of.isSlow ? 0 : static_cast<long>(of.held.size());
        return false;
    }
    of.waiting = 0;
    return true;
}

/// The member whose report is the next one of those that can be told, or nothing.
Copies::Of *Copies::next() {
    Of *next = nullptr;
    for (Of &it : all_)
        if (!it.held.empty() && (!next || it.held.front().report < next->held.front().report) && isNamed(it))
            next = &it;
    return next;
}

void Copies::tell(Of &of) {
    const Held &it = of.held.front();
    const Fields report(it.text.data(), it.text.size(), '|');
    teller_.tell('8',
                 withName(of.asker.compIdOf(report.number(11)), settings_.member.copyNames, of.reports.of(report)));
    of.told = it.report;
    of.held.pop_front();
    of.toldSince++;
    count_++;
    last_ = of.told;
}

void Copies::tell(const HasRoom &hasRoom) {
    const bool mayTell = isWhole_ && hasDisk();
    int count = 0;
    for (Of *of; mayTell && count < MOST_AT_ONCE && hasRoom() && (of = next()); count++) tell(*of);
    hasMore_ = mayTell && (count == MOST_AT_ONCE || !hasRoom());
    for (Of &it : all_) judgePace(it, mayTell && hasRoom());
    if (count) keep();
}

/// Looks whether others are to wait for a member of whom much is held: not where nothing but its names is missing, and
/// these come slowly. They wait for it no more until all of that is told.
void Copies::judgePace(Of &of, bool lacksNames) {
    const auto now = Clock::now();
    if (of.held.empty()) of.isSlow = false;
    const bool isFull = lacksNames && of.held.size() >= MOST_HELD / 2;
    if (isFull && now - of.fullAt < PATIENCE) return;
    if (isFull && of.toldSince < LEAST_TOLD) of.isSlow = true;
    of.fullAt = now;
    of.toldSince = 0;
}

/// Puts into the record how far it is, in the turn that tells.
void Copies::keep() {
    record_.changeTables();
    for (Of &it : all_) {
        if (it.kept == it.told) continue;
        put_.run(keyOf(it.name), it.told);
        it.kept = it.told;
    }
}

bool Copies::hasDisk(bool isAgain) {
    const bool isKept = quota_.isKept(), isThere = room_.isThere();
    const std::string why = !isKept    ? "its folders have more than MaxFolderBytes"
                            : !isThere ? "the disk is nearly full"
                                       : "";
    if (!why.empty() && why != saidOfDisk_) say(settings_.member.name(), "copies wait: " + why);
    saidOfDisk_ = why;
    return isThere && (isKept || isAgain);
}

std::string Copies::waiting() const {
    std::string words;
    for (const Of &it : all_)
        if (const long count = it.waiting) words += " " + it.name + " (" + std::to_string(count) + ")";
    return words;
}

}
