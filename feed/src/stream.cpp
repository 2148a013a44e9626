#include "stream.h"

#include <algorithm>
#include <cstdlib>
#include <cstring>
#include <random>
#include <utility>

#include "lines.h"

namespace feed {

namespace {

constexpr std::size_t A_RUN = 64;  // Of so many messages one asks for an answer: that all before it are there, too.
constexpr long UNDER_WAY = 4096;   // Messages of a stream that aren't acknowledged.
constexpr std::chrono::seconds PATIENCE(5);  // For an answer.
constexpr std::chrono::seconds LOSING(2);    // For which a stream has to end too early to have lost something.

std::string textOf(long number) {
    return std::to_string(number);
}

/// The number behind these words of an answer, or -1.
long numberIn(const std::string &answer, const char *words) {
    const std::size_t at = answer.find(words);
    return at == std::string::npos ? -1 : std::strtol(answer.c_str() + at + std::strlen(words), nullptr, 10);
}

/// Why an answer refuses.
std::string refusalOf(const std::string &answer) {
    if (answer.empty()) return "no server has the stream now";
    const char *const words = "\"description\":\"";
    const std::size_t at = answer.find(words);
    if (at == std::string::npos) return edge::shown(answer);
    const std::size_t from = at + std::strlen(words);
    return edge::shown(answer.substr(from, answer.find('"', from) - from));
}

/// A message in words: its hash, and how its text begins. Where it has no hash that of its text stands for it.
std::string shownOf(const Kept &it) {
    Chain own;
    own.take(it.text);
    return (it.hash.empty() ? own.text() : edge::shown(it.hash)) + " '" + edge::shown(it.text.substr(0, 60)) + "'";
}

/// A word that nobody else has.
std::string wordOfItsOwn() {
    std::random_device chance;
    Chain it;
    for (int count = 0; count < 4; count++) it.take(std::to_string(chance()));
    return it.text();
}

}

Stream::Stream(StreamSettings settings, Kind kind, std::size_t index)
    : settings_(std::move(settings)), kind_(kind), index_(std::to_string(index)) {}

void Stream::reset() {
    window_.clear();
    last_.clear();
    lastChain_ = chain_ = Chain();
    next_ = 1;
    sent_ = floor_ = compared_ = short_ = 0;
    isLost_ = false;
}

void Stream::letGo() {
    lastChain_ = window_.front().chain;
    window_.drop(last_);
}

void Stream::put(long event, const std::string &subject, const std::string &text, Clock::time_point since) {
    if (kind_ == Kind::Events) chain_.take(text);
    if (next_++ <= floor_) {
        last_ = text;
        lastChain_ = chain_;
        return;
    }
    if (window_.empty()) stillSince_ = since;
    Message &it = window_.add();
    it.event = event;
    it.subject = &subject;
    it.text = text;
    it.since = since;
    it.chain = chain_;
}

/// Compares the message in front of the window with the one of this number that the stream has, if it still has it.
void Stream::compare(Server &server, long number) {
    Kept there;
    const Kept here{last_, kind_ == Kind::Events ? lastChain_.text() : ""};
    compared_ = number;
    if (!number || !server.get(name(), number, there)) return;
    if (there.text == here.text && there.hash == here.hash) return;
    throw Differs("the stream " + name() + " differs from the journal at " + textOf(number) + ": " + shownOf(there) +
                  " there, " + shownOf(here) + " here: it has another journal's messages");
}

Place Stream::placeOf(Server &server) const {
    return server.placeOf(settings_, [this] { edge::say("", "the stream " + name() + " is made"); });
}

void Stream::learn(Server &server, Clock::time_point now) {
    place_ = placeOf(server);
    const long end = place_.end;
    if (end != floor_ || window_.empty()) stillSince_ = now;
    floor_ = end;
    if (kind_ == Kind::Newest) {
        window_.clear();
        next_ = end + 1;
        return;
    }
    needEnd(now);
    if (isLost_) return;
    while (!window_.empty() && before() < end) letGo();
    if (before() == end && compared_ != end) compare(server, end);
}

/// A stream that ends too early for a while has lost its end. A server may be behind for a moment.
void Stream::needEnd(Clock::time_point now) {
    const bool wasLost = isLost_;
    isLost_ = floor_ < before();
    if (!wasLost) lostSince_ = now;
    if (isLost_ && now - lostSince_ >= LOSING)
        throw Lost("the stream " + name() + " ends at " + textOf(floor_) + ", and had " + textOf(before()));
}

bool Stream::isDue(long events, Clock::time_point now, std::chrono::milliseconds still) const {
    return !isLost_ && !window_.empty() && window_.front().event <= events && now - stillSince_ >= still;
}

void Stream::compareShort(Server &server) {
    if (kind_ == Kind::Newest || isRead() || short_ == next_) return;
    short_ = next_;
    edge::say("", "the journal ends before the stream " + name() + ": " + textOf(next_ - 1) + " of " + textOf(floor_));
    compare(server, next_ - 1);
}

/// Each change of the stream of events has a new word, that of the limits too: whatever another feed does meanwhile, no
/// subject comes back that the stream took before.
void Stream::claim(Server &server) {
    if (kind_ == Kind::Events) {
        compared_ = 0;
        claim_ = subject() + "." + wordOfItsOwn();
        server.change(settings_, {claim_});
    } else if (isOther()) {
        server.change(settings_, settings_.subjects);
    }
    if (isOther()) edge::say("", "the stream " + name() + " gets the limits of the settings");
}

bool Stream::isAsItWas(Server &server) {
    if (!window_.empty()) return true;
    place_ = placeOf(server);
    return place_.end == std::max(floor_, before()) && !hasLostClaim();
}

const std::string &Stream::subjectOf(const Message &it) const {
    return claim_.empty() ? *it.subject : claim_;
}

void Stream::begin(Clock::time_point now) {
    sent_ = seen_ = began_ = before();
    heardAt_ = now;
    const std::lock_guard<std::mutex> lock(mutex_);
    epoch_++;
    acknowledged_ = sent_;
    isSilent_ = isUnheard_ = false;
    fault_.clear();
}

/// Behind a beginning the first event goes alone. What another feed had under way is refused, or refuses that one: the
/// next ones would stand behind the other's.
void Stream::publish(Server &server, long events) {
    const long behind = before(), most = kind_ == Kind::Events && behind == began_ ? 1 : UNDER_WAY;
    const auto holds = [&](long number) {
        return number < next_ && window_[static_cast<std::size_t>(number - behind - 1)].event <= events;
    };
    sent_ = std::max(sent_, behind);
    for (std::size_t run = 1; sent_ - behind < most && holds(sent_ + 1); run++) {
        const Message &it = window_[static_cast<std::size_t>(sent_ - behind)];
        sent_++;
        const bool asks = kind_ == Kind::Newest || run % A_RUN == 0 || sent_ - behind == most || !holds(sent_ + 1);
        server.publish(subjectOf(it), it.text, kind_ == Kind::Events ? it.chain.text() : "", sent_,
                       asks ? index_ + "-" + textOf(epoch_) + "-" + textOf(sent_) : "");
    }
}

/// How far all is acknowledged, and what is wrong, in words.
long Stream::heardSo(Clock::time_point now, std::string &fault) {
    const std::lock_guard<std::mutex> lock(mutex_);
    if (acknowledged_ != seen_ || sent_ <= std::max(acknowledged_, before())) heardAt_ = now;
    seen_ = acknowledged_;
    isSilent_ = isUnheard_ || now - heardAt_ >= PATIENCE;
    if (!fault_.empty()) fault = "the stream " + name() + " refuses " + fault_;
    else if (now - heardAt_ >= PATIENCE) fault = "the stream " + name() + " doesn't answer for " + textOf(sent_);
    return acknowledged_;
}

void Stream::hear(long epoch, long number, const std::string &answer) {
    const std::lock_guard<std::mutex> lock(mutex_);
    if (epoch != epoch_) return;
    const long given = answer.find("\"error\"") == std::string::npos ? numberIn(answer, "\"seq\":") : -1;
    if (given == number) acknowledged_ = std::max(acknowledged_, number);
    else if (fault_.empty()) {
        isUnheard_ = answer.empty();
        fault_ = textOf(number) + ": " + (given < 0 ? refusalOf(answer) : "it became " + textOf(given));
    }
}

}
