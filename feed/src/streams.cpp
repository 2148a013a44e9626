#include "streams.h"

#include <algorithm>
#include <cstdlib>
#include <cstring>

namespace feed {

namespace {

constexpr std::size_t MOST = 8192;  // Messages that a stream holds.

/// The subjects of a part, each of which ends by one of these.
std::vector<std::string> endsOf(const std::string &part, const std::vector<std::string> &each) {
    std::vector<std::string> ends;
    for (const std::string &it : each) ends.push_back(part + "." + it);
    return ends;
}

const char *const NO_LEVELS = "buys sells", *const MARK = "mark";

/// The text of a mark: an event, and the hash of all up to that.
std::string markOf(long event, const std::string &hash) {
    return std::string(MARK) + " " + std::to_string(event) + " " + hash;
}

/// The levels in the text of a book, behind its event and its symbol.
std::string levelsOf(const std::string &text) {
    const std::size_t at = text.find(" buys");
    return at == std::string::npos ? text : text.substr(at + 1);
}

std::string nameOf(int member) {
    return "C" + std::to_string(member);
}

}

Streams::Streams(const Settings &settings) : settings_(settings), book_(settings.venue.symbols) {
    const std::vector<std::string> &symbols = settings.venue.symbols;
    add("events", {"events"}, Stream::Kind::Events);
    trades_ = add("trades", endsOf("trades", symbols), Stream::Kind::Counted);
    for (int k = 1; k <= settings.members; k++)
        members_.push_back(add("member_" + nameOf(k), {"member." + nameOf(k)}, Stream::Kind::Counted));
    std::vector<std::string> newest = endsOf("book", symbols);
    newest.push_back(MARK);
    books_ = add("book", newest, Stream::Kind::Newest);
}

Stream *Streams::add(const std::string &part, const std::vector<std::string> &ends, Stream::Kind kind) {
    StreamSettings it{"venue_" + settings_.name + "_" + part,
                      {},
                      settings_.bounds.seconds,
                      settings_.bounds.bytes,
                      0,
                      settings_.bounds.replicas,
                      kind == Stream::Kind::Events};
    for (const std::string &end : ends) it.subjects.push_back(subjects_[end] = "venue." + settings_.name + "." + end);
    if (kind == Stream::Kind::Newest) {
        it.seconds = 0;
        it.ofEachSubject = 1;
    }
    all_.emplace_back(new Stream(it, kind, all_.size()));
    return all_.back().get();
}

void Streams::reset() {
    for (const auto &it : all_) it->reset();
    trade_ = Trades();
    book_ = Books(settings_.venue.symbols);
    if (!looksAhead_) sure_ = 0;  // It may be another journal.
    isMarkLearnt_ = looksAhead_ = false;
    learnt_ = marked_ = 0;
}

bool Streams::areFull() const {
    return std::any_of(all_.begin(), all_.end(), [](const std::unique_ptr<Stream> &it) { return it->size() >= MOST; });
}

bool Streams::hasRoom() const {
    return isMarkLearnt_ && !areFull();
}

void Streams::put(const std::string &line, Clock::time_point now) {
    Stream &events = *all_.front();
    const long number = events.next();
    const Event event(line);
    const auto member = static_cast<std::size_t>(event.member());
    book_.take(event);
    events.put(number, events.subject(), line, now);
    if (number == learnt_ && events.hash() != learntHash_)
        throw Differs("the mark of the feed " + settings_.name + " differs from the journal at " +
                      std::to_string(number) + ": " + learntHash_ + " there, " + events.hash() +
                      " here: it is another journal's");
    if (looksAhead_) return;
    if (member && member <= members_.size())
        members_[member - 1]->put(number, members_[member - 1]->subject(), line, now);
    if (!trade_.take(number, event) || !subjects_.count("trades." + trade_.symbol())) return;
    trades_->put(number, subject("trades." + trade_.symbol()), trade_.text(), now);
}

void Streams::putBooks(Clock::time_point now) {
    if (books_->size() || !events().isRead()) return;
    const long event = events().next() - 1;
    for (const std::string &it : book_.changed())
        books_->put(event, subject("book." + it), book_.text(it, event, settings_.depth), now);
    if (event <= marked_) return;
    marked_ = event;
    books_->put(event, subject(MARK), markOf(event, events().hash()), now);
}

void Streams::learn(Server &server, Clock::time_point now, bool all) {
    for (const auto &it : all_)
        if (all || it->size() || it->isLost() || it == all_.front()) it->learn(server, now);
    if (!isMarkLearnt_) learnMark(server);
    if (!events().isRead() || events().isLost()) return;
    sure_ = events().floor();
    if (looksAhead_) throw Lost("the stream " + lacking_ + " lacks more than " + std::to_string(MOST) + " messages");
}

/// What the feed of before has noted is compared once the journal is read so far, whatever a limit has taken since.
void Streams::learnMark(Server &server) {
    Kept it;
    if (server.newest(books_->name(), subject(MARK), it)) {
        const std::size_t hash = it.text.rfind(' ') + 1;
        learnt_ = std::strtol(it.text.c_str() + std::strlen(MARK), nullptr, 10);
        learntHash_ = it.text.substr(hash);
    }
    isMarkLearnt_ = true;
}

bool Streams::areLost() const {
    return std::any_of(all_.begin(), all_.end(), [](const std::unique_ptr<Stream> &it) { return it->isLost(); });
}

bool Streams::areDue(Clock::time_point now, std::chrono::milliseconds still) const {
    return !looksAhead_ && (events().isRead() || areFull()) &&
           std::any_of(all_.begin(), all_.end(), [&](const std::unique_ptr<Stream> &it) {
               return it->isDue(it == all_.front() ? it->next() : sure(), now, still);
           });
}

bool Streams::areStuck() const {
    return areFull() && !events().isRead() &&
           std::none_of(all_.begin(), all_.end(),
                        [&](const std::unique_ptr<Stream> &it) { return it->size() && it->front().event <= sure(); });
}

void Streams::lookAhead() {
    for (const auto &it : all_) {
        if (it->size() >= MOST) lacking_ = it->name();
        if (it != all_.front()) it->reset();
    }
    looksAhead_ = true;
    sure_ = 0;
}

long Streams::sure() const {
    return events().isRead() ? events().before() : std::min(events().before(), sure_);
}

bool Streams::areBooksOld(Server &server) const {
    if (!areEventsThere()) return false;
    Kept there;
    if (events().before() && (!server.newest(books_->name(), subject(MARK), there) ||
                              there.text != markOf(events().before(), events().hash())))
        return true;
    return std::any_of(settings_.venue.symbols.begin(), settings_.venue.symbols.end(), [&](const std::string &it) {
        const std::string here = levelsOf(book_.text(it, 0, settings_.depth));
        return server.newest(books_->name(), subject("book." + it), there) ? levelsOf(there.text) != here
                                                                           : here != NO_LEVELS;
    });
}

void Streams::compareShort(Server &server) {
    all_.front()->compareShort(server);
}

bool Streams::areOther() const {
    return std::any_of(all_.begin(), all_.end(), [](const std::unique_ptr<Stream> &it) { return it->isOther(); });
}

/// The events last: where another stream can't have these limits, no other feed is kept from going on.
void Streams::claim(Server &server) {
    std::for_each(all_.rbegin(), all_.rend(), [&](const std::unique_ptr<Stream> &it) { it->claim(server); });
}

bool Streams::isClaimLost(Server &server) {
    all_.front()->learnClaim(server);
    return events().isOfAnother();
}

void Streams::begin(Clock::time_point now) {
    for (const auto &it : all_) it->begin(now);
    book_.touchAll();
    marked_ = 0;
}

bool Streams::areAsTheyWere(Server &server) {
    return std::all_of(all_.begin(), all_.end(),
                       [&](const std::unique_ptr<Stream> &it) { return it->isAsItWas(server); });
}

bool Streams::areUnderWay() const {
    return std::any_of(all_.begin(), all_.end(), [](const std::unique_ptr<Stream> &it) { return it->size(); });
}

void Streams::publish(Server &server) {
    for (const auto &it : all_) it->publish(server, it == all_.front() ? it->next() : sure());
}

bool Streams::areSilent() const {
    return std::any_of(all_.begin(), all_.end(), [](const std::unique_ptr<Stream> &it) { return it->isSilent(); });
}

void Streams::hear(const std::string &word, const std::string &answer) {
    std::size_t index;
    long epoch, number;
    char end;
    if (std::sscanf(word.c_str(), "%zu-%ld-%ld%c", &index, &epoch, &number, &end) == 3 && index < all_.size())
        all_[index]->hear(epoch, number, answer);
}

}
