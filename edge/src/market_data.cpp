#include "market_data.h"

#include <algorithm>
#include <stdexcept>
#include <utility>

#include "market_messages.h"

namespace edge {

namespace {

// So many bytes of what may wait for a client are there for each level of a side: one message of changes has four
// entries for each at most, and is an eighth of all.
constexpr std::size_t BYTES_FOR_LEVEL = 512 * 4;

std::size_t mostLevelsBy(const Limits &limits) {
    return std::min(MarketData::MOST_LEVELS, limits.unsentBytes / BYTES_FOR_LEVEL);
}

}

constexpr std::size_t MarketData::MOST_REQUESTS, MarketData::MOST_LEVELS;

MarketData::MarketData(const MemberSettings &member, const std::map<std::string, Tick> &ticks, const Shelf &books)
    : member_(member), ticks_(ticks), books_(books), mostLevels_(mostLevelsBy(member.limits)) {}

void MarketData::asked(const FIX::Message &message) {
    try {
        if (!member_.market.isOpen) throw MarketRefused(NO_PERMISSION, "MarketData (N): it isn't open to this member");
        take(readMarketRequest(message, ticks_, member_.limits.dropped));
    } catch (const MarketRefused &why) {
        refuse(message, why);
    }
}

/// Ends the open request of this name, or opens one.
void MarketData::take(MarketRequest request) {
    const auto known = find(request.id);
    if (request.kind == MarketRequest::Kind::End) {
        if (known == requests_.end()) throw MarketRefused('\0', "MDReqID (262) is of no request that is open");
        requests_.erase(known);
        return;
    }
    if (known != requests_.end()) throw MarketRefused(DUPLICATE_ID, "MDReqID (262) is of a request that is open");
    if (requests_.size() >= MOST_REQUESTS)
        throw MarketRefused(TOO_MUCH, std::to_string(MOST_REQUESTS) + " requests are open, and no more may be");
    Open it;
    for (const std::string &symbol : request.symbols) it.sights.push_back({symbol, 0, true, {}});
    it.request = std::move(request);
    requests_.push_front(std::move(it));
}

MarketData::Requests::iterator MarketData::find(const std::string &id) {
    return std::find_if(requests_.begin(), requests_.end(), [&id](const Open &it) { return it.request.id == id; });
}

void MarketData::refuse(const FIX::Message &message, const MarketRefused &why) {
    FIX::Message told = marketRefusal(message, why);
    send(told);
}

void MarketData::send(FIX::Message &message) {
    if (!session_->send(message)) throw std::runtime_error("the store of its session takes nothing in");
}

void MarketData::beginAnew() {
    for (Open &it : requests_)
        for (Sight &sight : it.sights) sight.version = 0;
}

bool MarketData::isTaking(const std::string &symbol) const {
    return std::any_of(requests_.begin(), requests_.end(), [&symbol](const Open &it) {
        const std::vector<std::string> &those = it.request.symbols;
        return it.request.kind == MarketRequest::Kind::Subscribe &&
               std::find(those.begin(), those.end(), symbol) != those.end();
    });
}

Picture MarketData::pictureOf(const MarketRequest &request, const std::string &symbol) const {
    const Book &book = books_.of(symbol);
    const std::size_t most = request.depth ? std::min(request.depth, mostLevels_) : mostLevels_;
    Picture it;
    if (request.has(BID)) it.bids = book.best('1', most);
    if (request.has(OFFER)) it.offers = book.best('2', most);
    if (request.has(TRADE)) it.trade = book.lastTrade();
    return it;
}

/// Tells what is new of a symbol, if anything is.
void MarketData::tell(const MarketRequest &request, Sight &sight) {
    const bool isFirst = !sight.version;
    Picture now = pictureOf(request, sight.symbol);
    sight.version = books_.of(sight.symbol).version();
    sight.isNew = false;
    if (!isFirst && now == sight.told) return;
    FIX::Message told = !isFirst && request.isIncremental
                            ? changesOf(request, sight.symbol, ticks_.at(sight.symbol), sight.told, now)
                            : wholeOf(request, sight.symbol, ticks_.at(sight.symbol), now);
    send(told);
    hasTold_ = true;
    sight.told = std::move(now);
}

/// Whether something is to be told of a symbol: of one moment, once.
bool MarketData::wants(const Open &it, const Sight &sight) const {
    const bool isOnce = it.request.kind == MarketRequest::Kind::Snapshot;
    return isOnce ? !sight.version : sight.version != books_.of(sight.symbol).version();
}

/// Whether that can be told now: the symbol's venue is there.
bool MarketData::mayTell(const Open &it, const Sight &sight) const {
    return wants(it, sight) && books_.isThere(sight.symbol);
}

bool MarketData::isBehind(const Open &it) const {
    return std::any_of(it.sights.begin(), it.sights.end(), [&](const Sight &sight) { return wants(it, sight); });
}

/// Tells what is new of a request's symbols. Whether there was room for all: else those that weren't told come first.
bool MarketData::isTold(Open &it, bool isDue, const std::function<bool()> &hasRoom) {
    for (auto sight = it.sights.begin(); sight != it.sights.end(); ++sight) {
        if (!mayTell(it, *sight) || !(isDue || sight->isNew)) continue;
        if (!hasRoom()) {
            std::rotate(it.sights.begin(), sight, it.sights.end());
            return false;
        }
        tell(it.request, *sight);
    }
    return true;
}

/// Requests that were told go behind those that weren't, so that each comes to its turn.
void MarketData::tell(const std::function<bool()> &hasRoom) {
    const auto now = Clock::now();
    const bool isDue = now >= dueAt_;
    bool isDone = true;
    hasTold_ = false;
    for (std::size_t count = requests_.size(); count > 0 && isDone; count--) {
        Open &it = requests_.front();
        isDone = isTold(it, isDue, hasRoom);
        if (!isDone) break;
        const bool isOver = it.request.kind == MarketRequest::Kind::Snapshot && !isBehind(it);
        if (!isOver) requests_.push_back(std::move(it));
        requests_.pop_front();
    }
    if (isDue && hasTold_) dueAt_ = now + std::chrono::milliseconds(member_.market.interval);
}

std::chrono::milliseconds MarketData::pause(std::chrono::milliseconds most) const {
    const bool isAnyBehind = std::any_of(requests_.begin(), requests_.end(), [this](const Open &it) {
        return std::any_of(it.sights.begin(), it.sights.end(), [&](const Sight &at) { return mayTell(it, at); });
    });
    if (!isAnyBehind) return most;
    const auto left = std::chrono::duration_cast<std::chrono::milliseconds>(dueAt_ - Clock::now()).count() + 1;
    return std::min(most, std::chrono::milliseconds(std::max(0L, static_cast<long>(left))));
}

}
