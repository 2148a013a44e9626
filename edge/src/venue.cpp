#include "venue.h"

#include <ctime>
#include <stdexcept>

#include "hours.h"
#include "lines.h"

namespace edge {

namespace {

constexpr std::chrono::milliseconds AGAIN(200), REST(1000), MOST_REST(30000);
constexpr int MOST_LINK_LOOKS = 64;              // At the venue's link in one turn: the venue ends one that isn't read.
constexpr int MOST_MARKET_LOOKS = 16;            // At what the venue tells all, in one turn.
constexpr std::chrono::milliseconds WHOLE(10);   // Behind the last line of a command so much is silence.
constexpr std::chrono::milliseconds LATE(1000);  // So far behind the venue's reports the market isn't told.

bool isReadable(int fd) {
    pollfd it{fd, POLLIN, 0};
    return ::poll(&it, 1, 0) > 0;
}

}

const char *wordsOf(Serving state) {
    switch (state) {
        case Serving::WaitsForVenue: return "waits for the venue";
        case Serving::ReadsJournal: return "reads the journal";
        case Serving::TellsAgain: return "tells again what its engine wasn't sent";
        case Serving::Serves: return "serves";
        case Serving::IsNotServed: break;
    }
    return "isn't served";
}

constexpr std::size_t Venue::WATCHED;

Venue::Venue(const Settings &settings, std::size_t at, Record &record, Shared &shared, bool isMarketOpen, Hosting &host)
    : settings_(settings),
      member_(settings.member),
      place_(settings.venues[at]),
      isMarketOpen_(isMarketOpen),
      host_(host),
      names_(record, at, place_.letter),
      turn_(settings.ofAll.edge),
      link_(place_.host, place_.port + settings.member.number - 1, settings.member.name()),
      trader_(settings, place_, shared, record, names_, link_),
      books_(isMarketOpen_ ? settings.ticks : std::map<std::string, Tick>()),
      marketsTurn_(needsMarket() ? new ReplayTurn(settings.ofAll.edge, "following.lock") : nullptr) {}

/// What is said of this venue, where the member has several with its letter in front.
std::string Venue::named(const std::string &what) const {
    return place_.letter.empty() ? what : place_.letter + " " + what;
}

void Venue::drive() {
    if (link_.state() == VenueLink::State::Down && Clock::now() >= connectAt_) {
        link_.connect();
        if (link_.state() == VenueLink::State::Down) dropLink(link_.why());
    }
    if (wantsReplay_ && !replay_ && !host_.isTellingAgain() && turn_.tryTake()) {
        wantsReplay_ = false;
        replay_.reset(new Replay(place_, member_.name()));
    }
    followMarket();
}

void Venue::watch(std::vector<pollfd> &all) const {
    const int reads = trader_.holdsTooMuch() ? 0 : POLLIN, writes = link_.isWriting() ? POLLOUT : 0;
    const bool hasLink = link_.state() != VenueLink::State::Down;
    all.push_back({hasLink ? link_.fd() : -1, static_cast<short>(reads | writes), 0});
    all.push_back({replay_ ? replay_->fd() : -1, POLLIN, 0});
    all.push_back({follower_ ? follower_->fd() : -1, POLLIN, 0});
}

void Venue::came(const pollfd *those) {
    isLoggingOn_ = link_.state() == VenueLink::State::LoggingOn;
    hasLink_ = those[0].revents & (POLLIN | POLLHUP | POLLERR);
    hasJournal_ = those[1].revents;
    hasMarket_ = those[2].revents;
}

void Venue::read() {
    if (hasLink_) readLink();
    if (hasJournal_ || isReadingOver()) readJournal();
    if (hasMarket_ || (follower_ && follower_->isOver())) readMarket();
}

void Venue::tell(const std::string &what) const {
    say(member_.name(), "the venue" + (place_.letter.empty() ? "" : " " + place_.letter) + ": " + what);
}

/// Says what is wrong with the venue, once while that lasts.
void Venue::sayOfVenue(const std::string &why) {
    if (saidOfVenue_ != why) tell(why);
    saidOfVenue_ = why;
}

/// A venue that has taken the connection and ends it isn't waited for any longer.
void Venue::dropLink(const std::string &why) {
    if (isLoggingOn_ || trader_.isRecovering()) trader_.fails();
    isLoggingOn_ = false;
    sayOfVenue(why);
    state_ = Serving::WaitsForVenue;
    isKeptWaiting_ = false;
    drop(AGAIN);
}

void Venue::drop(std::chrono::milliseconds again) {
    link_.end();
    turnBack();
    wantsReplay_ = false;
    trader_.venueLost();
    connectAt_ = Clock::now() + again;
}

void Venue::rest() {
    state_ = Serving::IsNotServed;
    drop(REST);
}

void Venue::restAfter(const std::string &why) {
    const bool isNew = saidOfFault_ != why;
    if (isNew) say(member_.name(), named("isn't served: " + why));
    if (isNew) again_ = REST;
    else again_ = std::min(2 * again_, MOST_REST);
    saidOfFault_ = why;
    trader_.fails();
    state_ = Serving::IsNotServed;
    drop(again_);
}

void Venue::turnBack() {
    replay_.reset();
    turn_.giveBack();
}

void Venue::readLink() {
    if (link_.state() == VenueLink::State::Down) return;
    const bool wasUp = link_.state() == VenueLink::State::Up;
    const auto take = [this](const Fields &message) { trader_.heard(message); };
    bool stands = link_.state() == VenueLink::State::Connecting ? link_.flush() : link_.read(take);
    for (int looks = 1; stands && link_.hasMore() && !trader_.holdsTooMuch() && looks < MOST_LINK_LOOKS; looks++)
        stands = link_.read(take);
    if (!stands) {
        dropLink(link_.why());
        return;
    }
    if (wasUp || link_.state() != VenueLink::State::Up) return;
    if (isKeptWaiting_)
        tell("it takes the Logon at last: where another client held its port, this edge goes on in its place");
    isKeptWaiting_ = false;
    state_ = Serving::ReadsJournal;
    trader_.beginRecovery();
    books_.clear();
    follower_.reset();
    if (marketsTurn_) marketsTurn_->giveBack();
    wantsReplay_ = true;
}

void Venue::readJournal() {
    if (!replay_ || host_.isTellingAgain()) return;  // What the journal tells comes behind that.
    const Replay::Told seen = [this](const char *line, std::size_t size) { this->seen(line, size); };
    const bool isWhole = replay_->read([this](const char *line, std::size_t size) { trader_.recovered(line, size); },
                                       needsMarket() ? seen : nullptr);
    if (!isWhole) return;
    turnBack();
    books_.settle();
    trader_.endRecovery([this](int desk) { return host_.hasClient(desk); });
    host_.endOrdersOf(trader_);
    state_ = Serving::Serves;
    saidOfVenue_.clear();
    saidOfFault_.clear();
    host_.serves();
    const std::string outside = outsideOf(settings_.hours, std::time(nullptr));
    say(member_.name(), named("serves, behind report " + std::to_string(trader_.counts().lastReport) +
                              (outside.empty() ? "" : ", " + outside)));
}

/// Lets what the venue tells all members come, where this one needs that. First the journal is read once more: other
/// members wait for that, until something of it has come.
void Venue::followMarket() {
    if (!needsMarket() || !trader_.isReady() || follower_ || Clock::now() < followAt_ || !marketsTurn_->tryTake())
        return;
    try {
        follower_.reset(new Replay(place_, member_.name(), books_.commands()));
        books_.beginAnew();
    } catch (const std::runtime_error &fault) {
        loseMarket(fault.what());
    }
}

/// Begins anew soon: until then what is known of the market is what was told last.
void Venue::loseMarket(const std::string &why) {
    say(member_.name(), named("the market isn't followed, and that begins anew: " + why));
    follower_.reset();
    marketsTurn_->giveBack();
    books_.drop();
    followAt_ = Clock::now() + REST;
}

/// A line of what the venue tells all members.
void Venue::seen(const char *line, std::size_t size) {
    trader_.seen(line, size);
    books_.take(line, size);
}

/// Reads what the venue has told all members since.
void Venue::readMarket() {
    if (!follower_) return;
    std::string why = "venue-events ended";
    try {
        for (int looks = 0; looks < MOST_MARKET_LOOKS && (follower_->isOver() || isReadable(follower_->fd())); looks++)
            if (follower_->read([](const char *, std::size_t) {},
                                [this](const char *line, std::size_t size) { seen(line, size); }))
                throw std::runtime_error(why);
        settleAt_ = Clock::now() + WHOLE;
        return;
    } catch (const std::runtime_error &fault) {
        why = fault.what();
    }
    loseMarket(why);
}

/// Whether all has come of the last command: what tells it has written nothing for a while, and its last line is whole.
bool Venue::isCommandWhole() const {
    const bool comesMore = follower_ && (follower_->isWithinLine() || isReadable(follower_->fd()));
    return Clock::now() >= settleAt_ && !comesMore;
}

/// Whether the books are those of the market now: they are followed, and no report to the member is far ahead of them.
/// A member that is told something all the time is always a little ahead, so one report after another is looked for.
bool Venue::isMarketThere() {
    if (books_.outputs() >= lateFor_) {
        lateFor_ = trader_.counts().lastReport;
        lateAt_ = Clock::now() + LATE;
    }
    return follower_ && !books_.isOld() && Clock::now() < lateAt_;
}

/// Whether something is to read the journal, once it is this member's turn.
bool Venue::wantsTurn() const {
    return wantsReplay_ || (needsMarket() && trader_.isReady() && !follower_);
}

void Venue::lookAtMarket() {
    if (!books_.isSettled() && isCommandWhole()) books_.settle();
    if (follower_ && books_.hasCome()) marketsTurn_->giveBack();
    noteMarket();
}

void Venue::tick() {
    const std::string waits = link_.waitsFor();
    if (!waits.empty()) sayOfVenue(waits);
    isKeptWaiting_ = isKeptWaiting_ || !waits.empty();
    trader_.tidy();
}

void Venue::flush() {
    const bool isDown = link_.state() == VenueLink::State::Down;
    if (isDown ? trader_.isReady() : link_.isWriting() && !link_.flush()) dropLink(link_.why());
    trader_.noteUnsent();
}

void Venue::end() {
    if (link_.state() == VenueLink::State::Up && !link_.flush()) tell(link_.why());
}

}
