#include "traders.h"

#include <algorithm>
#include <iterator>

namespace edge {

std::size_t Sweeps::count() const {
    std::size_t count = 0;
    for (const Sweep &it : each) count += it.count;
    return count;
}

template <class Is>
bool Traders::isAny(const Is &is) const {
    return std::any_of(all_.begin(), all_.end(), [&is](const Trader *it) { return is(*it); });
}

void Traders::join() {
    if (all_.size() == 1) return;
    for (Trader *const it : all_) {
        const auto others = [this, it] {
            std::vector<Trader *> others;
            std::copy_if(all_.begin(), all_.end(), std::back_inserter(others),
                         [it](const Trader *other) { return other != it; });
            return others;
        };
        it->elsewhere().openValue = [others](int desk) {
            Money sum = 0;
            for (const Trader *const other : others()) sum += other->openValue(desk);
            return sum;
        };
        it->elsewhere().openOrders = [others](int desk) {
            std::size_t sum = 0;
            for (const Trader *const other : others()) sum += other->openOrders(desk);
            return sum;
        };
        it->elsewhere().isKnown = [others] {
            const std::vector<Trader *> those = others();
            return std::all_of(those.begin(), those.end(), [](const Trader *other) { return other->isOpenKnown(); });
        };
        it->elsewhere().isNameless = [others](const std::string &name) {
            const std::vector<Trader *> those = others();
            return std::any_of(those.begin(), those.end(),
                               [&name](const Trader *other) { return other->names().isNameless(name); });
        };
        it->elsewhere().sweep = [others](const Sweep &sweep, std::string &words) {
            std::size_t count = 0;
            for (Trader *const other : others()) count += other->sweepAlong(sweep, words);
            return count;
        };
    }
}

void Traders::attach(int desk, FIX::Session &session, const Day &day) {
    for (Trader *const it : all_) it->attach(desk, session, day);
    if (desk == FIRST_DESK && shared_.isThere()) shared_.switches().attach();
}

void Traders::sendsTo(int desk, FIX::Responder *client) {
    for (Trader *const it : all_) it->sendsTo(desk, client);
}

Trader &Traders::of(const std::string &symbol) const {
    for (Trader *const it : all_)
        if (it->venue().trades(symbol)) return *it;
    return first();
}

Trader *Traders::ofLetter(const std::string &letter) const {
    const auto found =
        std::find_if(all_.begin(), all_.end(), [&letter](const Trader *it) { return it->venue().letter == letter; });
    return found == all_.end() ? nullptr : *found;
}

/// What is about all symbols goes to the first venue that takes that, or else to the first one that is there, and this
/// one asks the others.
void Traders::asked(int desk, const FIX::Message &message) {
    if (all_.size() == 1) return first().asked(desk, message);
    const Request head = Orders::headOf(message, desk);
    auto at = std::find_if(all_.begin(), all_.end(), [desk](const Trader *it) { return it->takesMassCancel(desk); });
    if (at == all_.end()) at = std::find_if(all_.begin(), all_.end(), [](const Trader *it) { return it->isReady(); });
    const bool isOfAll = head.isMassCancel() && head.symbol.empty() && at != all_.end();
    (isOfAll ? **at : of(head.symbol)).asked(desk, message);
}

void Traders::left(int desk) {
    for (Trader *const it : all_) it->left(desk);
}

void Traders::isBack(int desk) {
    first().isBack(desk);
    shared_.letsOn();
}

Sweeps Traders::cancelEach() {
    Sweeps all;
    for (Trader *const it : all_)
        if (it->isReady()) it->needNumbers();
    for (Trader *const it : all_) all.each.push_back(it->isReady() ? it->cancelEach() : it->owe());
    return all;
}

bool Traders::isOver(const Sweeps &it) const {
    bool isOver = true;
    for (std::size_t at = 0; at < it.each.size(); at++) isOver = isOver && all_[at]->isOver(it.each[at]);
    return isOver;
}

std::string Traders::restsOf(const Sweeps &it) {
    std::string words;
    for (std::size_t at = 0; at < it.each.size(); at++) {
        const std::string &letter = all_[at]->venue().letter;
        words += (at ? "; " : "") + letter + (letter.empty() ? "" : ": ") + all_[at]->restsOf(it.each[at]);
    }
    return words;
}

bool Traders::isSweeping() const {
    return isAny([](const Trader &it) { return it.isSweeping(); });
}

bool Traders::isWaiting() const {
    return isAny([](const Trader &it) { return it.isWaiting(); });
}

bool Traders::isReady() const {
    return isAny([](const Trader &it) { return it.isReady(); });
}

bool Traders::letsOn() const {
    return isReady() && !isAny([](const Trader &it) { return it.isReadFirst(); });
}

bool Traders::isBusy(int desk) const {
    return isAny([desk](const Trader &it) { return it.isBusy(desk); });
}

long Traders::sent() const {
    long sent = 0;
    for (const Trader *const it : all_) sent += it->link().sent();
    return sent;
}

bool Traders::takesMore() const {
    return !isAny([](const Trader &it) { return !it.takesMore(); });
}

std::string Traders::fault() const {
    for (const Trader *const it : all_)
        if (!it->fault().empty()) return it->fault();
    return "";
}

void Traders::clearFault() {
    for (Trader *const it : all_) it->clearFault();
}

CountsOfAll Traders::counts() const {
    CountsOfAll sum;
    for (const Trader *const it : all_) {
        sum.requests += it->counts().requests;
        sum.reports += it->counts().reports;
        sum.refusals += it->counts().refusals;
        sum.openOrders += it->counts().openOrders;
    }
    return sum;
}

Money Traders::openValue() const {
    Money sum = 0;
    for (const Trader *const it : all_) sum += it->exposure().shownValue();
    return sum;
}

long Traders::refusalsBy(Limit limit) const {
    long sum = 0;
    for (const Trader *const it : all_) sum += it->refusalsBy(limit);
    return sum;
}

}
