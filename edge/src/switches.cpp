#include "switches.h"

#include <algorithm>
#include <ctime>

#include "seconds.h"

namespace edge {

namespace {

std::string sinceOf(long at, const std::string &who) {
    return "since " + timeOf(at) + " by " + who;
}

}

Switches::Switches(Record &record, const std::vector<std::string> &symbols)
    : symbols_(symbols),
      record_(record),
      all_(record.database(), "SELECT what, at, who FROM switches"),
      put_(record.database(), "INSERT OR REPLACE INTO switches VALUES (?, ?, ?)"),
      drop_(record.database(), "DELETE FROM switches WHERE what = ?") {}

void Switches::attach() {
    std::map<std::string, std::string> found;
    for (Rows rows = all_.of(); rows.next();)
        if (rows.bytes(0).empty() || knows(rows.bytes(0)))
            found[rows.bytes(0)] = sinceOf(rows.number(1), rows.bytes(2));
    const std::lock_guard<std::mutex> lock(mutex_);
    on_ = std::move(found);
}

void Switches::put(const std::string &what, const std::string &who) {
    const long now = std::time(nullptr);
    record_.changeTables();
    put_.run(what, now, who);
    const std::lock_guard<std::mutex> lock(mutex_);
    on_[what] = sinceOf(now, who);
}

void Switches::drop(const std::string &what) {
    record_.changeTables();
    drop_.run(what);
    const std::lock_guard<std::mutex> lock(mutex_);
    on_.erase(what);
}

bool Switches::knows(const std::string &symbol) const {
    return std::find(symbols_.begin(), symbols_.end(), symbol) != symbols_.end();
}

std::string Switches::words() const {
    const std::lock_guard<std::mutex> lock(mutex_);
    std::string words;
    for (const auto &it : on_)
        words += (words.empty() ? "" : ", ") + (it.first.empty() ? "stopped" : it.first + " halted") + " " + it.second;
    return words;
}

bool Switches::showsStopped() const {
    const std::lock_guard<std::mutex> lock(mutex_);
    return isStopped();
}

std::map<std::string, bool> Switches::shownHalted() const {
    const std::lock_guard<std::mutex> lock(mutex_);
    std::map<std::string, bool> all;
    for (const std::string &symbol : symbols_) all[symbol] = isHalted(symbol);
    return all;
}

}
