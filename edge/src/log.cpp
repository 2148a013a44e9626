#include "log.h"

#include <fcntl.h>
#include <sys/stat.h>

#include <algorithm>
#include <cstdio>
#include <cstring>
#include <stdexcept>
#include <utility>

#include "files.h"
#include "lines.h"
#include "message_types.h"
#include "seconds.h"

namespace edge {

namespace {

constexpr int MOST_AGAIN = 20;     // Of what one ResendRequest brings so many are written.
constexpr std::size_t FRONT = 64;  // Bytes of a message that have its MsgSeqNum, and the 43 behind that.

bool beginsSo(const std::string &text, const std::string &front) {
    return !text.compare(0, front.size(), front);
}

/// A message of a market without its entries, which would fill a log within minutes: how many there are stays.
std::string withoutEntries(const std::string &message) {
    const std::size_t count = message.find("\001268="), end = message.rfind("\00110=");
    if (count == std::string::npos || end == std::string::npos) return message;
    return message.substr(0, message.find('\1', count + 1)) + message.substr(end);
}

}

LogFile::LogFile(const std::string &front, std::size_t most, int files) : front_(front), most_(most), files_(files) {
    open();
}

void LogFile::open() {
    const std::string path = front_ + ".current.log";
    file_.reset(::open(path.c_str(), O_WRONLY | O_CREAT | O_APPEND | O_CLOEXEC, 0666));
    struct stat it;
    if (!file_ || ::fstat(file_.get(), &it)) throw FIX::ConfigError("can't use " + path + ": " + reason());
    size_ = static_cast<std::size_t>(it.st_size);
}

std::string LogFile::backup(int number) const {
    return front_ + ".backup." + std::to_string(number) + ".log";
}

/// Where it can't the present file is emptied, so that it doesn't grow without a bound.
void LogFile::beginAnew() {
    for (int number = files_ - 1; number > 1; number--) ::rename(backup(number - 1).c_str(), backup(number).c_str());
    const std::string path = front_ + ".current.log";
    if (files_ == 1 || ::rename(path.c_str(), backup(1).c_str())) {
        if (!::ftruncate(file_.get(), 0)) size_ = 0;
        return;
    }
    size_ = 0;  // Of the next file: where there is none yet, no more of the others may go for that.
    try {
        open();
    } catch (const FIX::ConfigError &why) {
        say("", why.what());  // The descriptor is gone: lines are lost until there is a file again.
    }
}

void LogFile::put(const std::string &moment, const std::string &text) {
    const std::string line = moment + " : " + text + "\n";
    const std::size_t before = size_ + waiting_.size();
    if (before && before + line.size() > most_) {
        flush();
        beginAnew();
    }
    waiting_ += line;
}

void LogFile::flush() {
    if (waiting_.empty()) return;
    try {
        if (!file_) open();
        writeAll(file_.get(), waiting_, "a log");
        size_ += waiting_.size();
    } catch (const std::exception &) {
        // Nothing waits for a log: new orders are refused before its disk is full.
    }
    waiting_.clear();
}

Log::Log(const std::string &front, const LogBounds &bounds, bool waits)
    : messages_(front + ".messages", bounds.bytes, bounds.files),
      events_(front + ".event", bounds.bytes, bounds.files),
      waits_(waits) {}

void Log::flush() {
    const std::lock_guard<std::mutex> lock(mutex_);
    if (!lines_.empty()) write();
}

void Log::put(LogFile &file, const std::string &text, bool isMasked) {
    const std::lock_guard<std::mutex> lock(mutex_);
    lines_.push_back({thisMoment(), file, text, isMasked});
    if (!waits_) write();
}

/// What doesn't print is written as \x and two digits, so that no message can write a line of its own.
void Log::write() {
    for (Line &it : lines_)
        it.file.put(momentOf(it.moment), printed(it.isMasked ? masked(std::move(it.text)) : it.text));
    lines_.clear();
    messages_.flush();
    events_.flush();
}

void Log::onIncoming(const std::string &message) {
    again_ = 0;
    put(messages_, message, true);
}

/// The library writes 43 behind 34, in front of what has any length, and only where it sends something again. A word
/// with the number 0 is the edge's own.
void Log::onOutgoing(const std::string &message) {
    const auto has = [&message](const char *field) {
        return ::memmem(message.data(), std::min(message.size(), FRONT), field, std::strlen(field)) != nullptr;
    };
    const bool isAgain = has("\00143=Y\1") && !has("\00134=0\1");
    if (isAgain && ++again_ > MOST_AGAIN) return;
    if (isOfMarket(message)) put(messages_, withoutEntries(message));
    else put(messages_, message);
}

void Log::onEvent(const std::string &event) {
    if (beginsSo(event, "Resending Message: ") && again_ > MOST_AGAIN) return;
    put(events_, event);
}

}
