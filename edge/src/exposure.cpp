#include "exposure.h"

#include <algorithm>

namespace edge {

namespace {

constexpr char BUYS = '1', SELLS = '2';

/// A number of a report, which the venue has no greater ones of: so no sum of them is too great.
long boundedOf(const Fields &report, int tag) {
    return std::min(report.number(tag), MOST);
}

/// What is left of a quantity.
long leftOf(long quantity, long filled) {
    return std::max(0L, quantity - filled);
}

}

long Exposure::Order::quantity() const {
    long most = left;
    for (const auto &it : asks) most = std::max(most, leftOf(it.second.quantity, filled));
    return most;
}

Money Exposure::Order::value(const Tick &tick) const {
    Money most = tick.valueOf(price, left);
    for (const auto &it : asks)
        most = std::max(most, tick.valueOf(it.second.price, leftOf(it.second.quantity, filled)));
    return most;
}

/// Of the prices at which it rests or may come to, the one that crosses most; 0: it doesn't rest.
long Exposure::Order::boldest() const {
    long boldest = left && mayStay ? price : 0;
    for (const auto &it : asks) {
        if (!it.second.mayStay) continue;
        const long other = it.second.price;
        boldest = !boldest ? other : side == BUYS ? std::max(boldest, other) : std::min(boldest, other);
    }
    return boldest;
}

Exposure::Counted Exposure::countedOf(const Order &it) const {
    const auto tick = ticks_.find(it.symbol);
    if (tick == ticks_.end()) return {0, 0, 0, it.desk};  // No order of the venue has such a symbol.
    return {it.value(tick->second), it.quantity(), it.boldest(), it.desk};
}

/// Changes the sums by what has become of an order.
void Exposure::count(long key, const Order &it, const Counted &before, const Counted &now) {
    const Place place{it.symbol, it.side};
    if (before.quantity != now.quantity) quantities_[place] += now.quantity - before.quantity;
    if (before.boldest != now.boldest) {
        auto &prices = prices_[place];
        if (before.boldest) prices.erase({before.boldest, key});
        if (now.boldest) prices.insert({now.boldest, key});
    }
    if (before.value == now.value && before.desk == now.desk) return;
    values_[before.desk] -= before.value;
    values_[now.desk] += now.value;
    value_ += now.value - before.value;
    const std::lock_guard<std::mutex> lock(mutex_);
    shown_ = value_;
}

/// Changes an order, and what is counted of it. One of which nothing is left goes.
template <class Change>
void Exposure::change(Orders::iterator at, const Change &how) {
    Order &it = at->second;
    const Counted before = countedOf(it);
    how(it);
    count(at->first, it, before, countedOf(it));
    if (it.isOpen()) return;
    keys_.erase(it.number);
    orders_.erase(at);
}

Exposure::Orders::iterator Exposure::find(long number) {
    const auto key = keys_.find(number);
    return key == keys_.end() ? orders_.end() : orders_.find(key->second);
}

/// The order that this request is a replace of, as far as that is known. The venue takes none of another symbol or
/// side.
const Exposure::Order *Exposure::orderOf(long original, const Request &it) const {
    const auto key = keys_.find(original);
    const auto order = key == keys_.end() ? orders_.end() : orders_.find(key->second);
    return order != orders_.end() && order->second.isOf(it) ? &order->second : nullptr;
}

/// The order that has this number, or is asked to have it. Where there is none a new one has it.
Exposure::Orders::iterator Exposure::place(long number, const std::string &symbol, char side) {
    const auto known = find(number);
    if (known != orders_.end()) return known;
    keys_[number] = number;
    const auto added = orders_.emplace(number, Order());
    Order &order = added.first->second;
    if (added.second) {
        order.symbol = symbol;
        order.side = side;
        order.number = number;
    }
    return added.first;
}

void Exposure::sent(long number, long original, const Request &it, long price) {
    const auto at = place(orderOf(original, it) ? original : number, it.symbol, it.side);
    keys_[number] = at->first;
    change(at, [&](Order &order) {
        order.asks[number] = {price, it.quantity, it.mayStay()};
        order.desk = it.desk;
    });
}

/// A request is answered, or won't be.
void Exposure::end(long number) {
    const auto at = find(number);
    if (at == orders_.end()) return;
    if (at->second.number != number || !at->second.left) keys_.erase(number);
    change(at, [number](Order &order) { order.asks.erase(number); });
}

void Exposure::take(const Fields &report, int desk) {
    const char event = report.byte(150);
    const bool isExecution = report.byte(35) == '8' && event != '8' && ticks_.count(report.text(55));
    if (!isExecution) {
        end(report.number(11));
        return;
    }
    if (event == 'F') positions_[report.text(55)] += (report.byte(54) == BUYS ? 1 : -1) * boundedOf(report, 32);
    takeExecution(report, desk);
}

/// A report of what an order has become: of a cancel or a replace it has the order's number of before, too. The name of
/// that one may have been dropped, so the desk is that of the newer number.
void Exposure::takeExecution(const Fields &report, int desk) {
    const char event = report.byte(150);
    const bool isAsked = report.has(41), isOver = event == '4' || report.byte(39) == '2';
    const long number = report.number(11);
    const auto at = place(isAsked ? report.number(41) : number, report.text(55), report.byte(54));
    if (find(number) != at) end(number);
    if (event == '5') {
        keys_.erase(at->second.number);
        keys_[number] = at->first;
    }
    change(at, [&](Order &order) {
        const auto ask = order.asks.find(number);
        if (ask != order.asks.end()) {
            order.price = ask->second.price;
            order.mayStay = ask->second.mayStay;
            order.asks.erase(ask);
        }
        if (event != '4') order.number = number;
        if (report.has(44)) order.price = boundedOf(report, 44);
        order.left = isOver ? 0 : boundedOf(report, 151);
        order.filled = boundedOf(report, 14);
        order.desk = desk;
    });
}

void Exposure::clear() {
    orders_.clear();
    keys_.clear();
    quantities_.clear();
    prices_.clear();
    positions_.clear();
    value_ = 0;
    values_.clear();
    const std::lock_guard<std::mutex> lock(mutex_);
    shown_ = 0;
}

Money Exposure::value(int desk) const {
    const auto found = values_.find(desk);
    return !desk ? value_ : found == values_.end() ? 0 : found->second;
}

Money Exposure::valueWith(long original, const Request &it, long price) const {
    const Order *const order = orderOf(original, it);
    const Tick &tick = ticks_.at(it.symbol);
    return value_ - (order ? order->value(tick) : 0) + tick.valueOf(price, openOf(original, it));
}

Money Exposure::desksValueWith(long original, const Request &it, long price) const {
    const auto own = values_.find(it.desk);
    return valueWith(original, it, price) - value_ + (own == values_.end() ? 0 : own->second);
}

long Exposure::quantityWith(long original, const Request &it) const {
    const Order *const order = orderOf(original, it);
    const auto found = quantities_.find({it.symbol, it.side});
    const long all = found == quantities_.end() ? 0 : found->second;
    return all - (order ? order->quantity() : 0) + openOf(original, it);
}

long Exposure::openOf(long original, const Request &it) const {
    const Order *const order = orderOf(original, it);
    return leftOf(it.quantity, order ? order->filled : 0);
}

long Exposure::positionOf(const std::string &symbol) const {
    const auto found = positions_.find(symbol);
    return found == positions_.end() ? 0 : found->second;
}

std::vector<long> Exposure::crossedBy(const std::string &symbol, char side, long price) const {
    std::vector<long> numbers;
    const auto found = prices_.find({symbol, side == BUYS ? SELLS : BUYS});
    if (found == prices_.end()) return numbers;
    const auto add = [&](long key) {
        const Order &order = orders_.at(key);
        if (order.left && order.mayStay) numbers.push_back(order.number);
        for (const auto &ask : order.asks)
            if (ask.second.mayStay) numbers.push_back(ask.first);
    };
    const auto &prices = found->second;
    if (side == BUYS)
        for (auto it = prices.begin(); it != prices.end() && (!price || it->first <= price); ++it) add(it->second);
    else
        for (auto it = prices.rbegin(); it != prices.rend() && (!price || it->first >= price); ++it) add(it->second);
    return numbers;
}

Money Exposure::shownValue() const {
    const std::lock_guard<std::mutex> lock(mutex_);
    return shown_;
}

}
