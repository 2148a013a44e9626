#pragma once

// The log of a session, and what bounds its files. Each message's turn puts lines here, and member.cpp writes them once
// the turn has sent all.

#include <quickfix/Log.h>

#include <cstddef>
#include <ctime>
#include <mutex>
#include <string>
#include <vector>

#include "descriptor.h"

namespace edge {

/// A file of lines that begins anew at a size: what it was before gets a number, and of these so many are kept. Lines
/// that a full disk doesn't take are lost, and those behind them come again with room.
class LogFile {
public:
    /// `front`.current.log, and `front`.backup.1.log and so on; throws a ConfigError where it can't be used.
    LogFile(const std::string &front, std::size_t most, int files);

    ~LogFile() { flush(); }

    /// Puts a line, behind its moment, where `flush` finds it.
    void put(const std::string &moment, const std::string &text);

    /// Writes the lines that were put.
    void flush();

private:
    void open();
    void beginAnew();
    std::string backup(int number) const;

    const std::string front_;
    const std::size_t most_;
    const int files_;
    Descriptor file_;
    std::size_t size_ = 0;
    std::string waiting_;
};

/// How much a log may take.
struct LogBounds {
    std::size_t bytes;
    int files;
};

/// A log of messages and one of events, in files of the library's names and form, with passwords masked. The library's
/// own log would stay silent once its disk was full. Of what a ResendRequest brings the first messages alone are
/// written: all of it has been written before.
class Log : public FIX::Log {
public:
    /// In files whose names begin so; throws a ConfigError where they can't be used. What is logged is written at once,
    /// or where it `waits` by `flush`.
    Log(const std::string &front, const LogBounds &bounds, bool waits);

    ~Log() override { flush(); }

    /// Writes what waits. Of any thread.
    void flush();

    void clear() override {}
    void backup() override {}
    void onIncoming(const std::string &message) override;
    void onOutgoing(const std::string &message) override;
    void onEvent(const std::string &event) override;

private:
    /// A message or an event, as it came.
    struct Line {
        timespec moment;
        LogFile &file;
        std::string text;
        bool isMasked;
    };

    void put(LogFile &file, const std::string &text, bool isMasked = false);
    void write();

    std::mutex mutex_;  // Of all that follows.
    LogFile messages_, events_;
    const bool waits_;
    std::vector<Line> lines_;
    int again_ = 0;  // So many messages were sent again by the last ResendRequest.
};

}
