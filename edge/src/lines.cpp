#include "lines.h"

#include <poll.h>
#include <unistd.h>

#include <algorithm>
#include <cerrno>
#include <cstring>
#include <mutex>

#include "quiet.h"

namespace edge {

namespace {
constexpr std::size_t LONGEST = 200;
std::string name = "gikvand-edge", speaker;  // They are set before there is more than one thread.
}

void speakAs(const std::string &program) {
    name = program;
}

void speakFor(const std::string &who) {
    speaker = who;
}

namespace {

void write(const std::string &who, const std::string &what) {
    const std::string &about = who.empty() ? speaker : who;
    const std::string line = name + ": " + (about.empty() ? "" : about + ": ") + what + "\n";
    pollfd it{STDERR_FILENO, POLLOUT, 0};
    if (::poll(&it, 1, 0) != 1) return;  // Whoever reads it has stopped: no member waits for that.
    for (std::size_t at = 0; at < line.size();) {
        const ssize_t done = ::write(STDERR_FILENO, line.data() + at, line.size() - at);
        if (done < 0 && errno != EINTR) return;  // Nobody reads: there is no other place to say so.
        if (done > 0) at += static_cast<std::size_t>(done);
    }
}

Quiet quiet;
std::mutex mutex;  // Of that, and of the order of lines.

void writeCounts() {
    for (const std::string &line : quiet.counts()) write("", line);
}

}

void say(const std::string &who, const std::string &what, int mostInASecond) {
    const std::lock_guard<std::mutex> lock(mutex);
    writeCounts();
    if (quiet.lets(what, mostInASecond)) write(who, what);
}

void sayCounts() {
    const std::lock_guard<std::mutex> lock(mutex);
    writeCounts();
}

namespace {

/// Whether a byte stays as it is.
unsigned isPlain(char it) {
    return (it == '\1') | ((it >= ' ') & (it <= '~') & (it != '\\'));
}

}

/// Nearly every text is plain. It is looked at without a branch, many bytes at once.
std::string printed(const std::string &text) {
    static const char *const digits = "0123456789ABCDEF";
    unsigned areAll = 1;
    for (const char it : text) areAll &= isPlain(it);
    if (areAll) return text;
    std::string line;
    for (const char it : text) {
        const auto byte = static_cast<unsigned char>(it);
        if (isPlain(it)) line += it;
        else line += {'\\', 'x', digits[byte / 16], digits[byte % 16]};
    }
    return line;
}

std::string shown(const std::string &text) {
    std::string line = printed(text.substr(0, LONGEST));
    std::replace(line.begin(), line.end(), '\1', '|');
    return text.size() > LONGEST ? line + " .." : line;
}

std::string masked(std::string message) {
    for (const std::string field : {"\001554=", "\001925="})
        for (std::size_t at = message.find(field); at != std::string::npos; at = message.find(field, at + 1)) {
            const std::size_t from = at + field.size(), end = std::min(message.find('\1', from), message.size());
            message.replace(from, end - from, "***");
        }
    return message;
}

std::string reason() {
    return std::strerror(errno);
}

}
