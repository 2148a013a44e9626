#pragma once

#include <sys/types.h>

#include <cerrno>
#include <string>
#include <vector>

namespace edge {

/// Bytes that come in, and have not been taken yet. What one look brings is read into a piece of its own first, so that
/// a look costs no more than what it brings.
class Inbox {
public:
    enum class Look { Some, None, End, Failed };

    /// Looks once what `from` has, which reads into a place of this size as recv does.
    template <class From>
    Look look(From from) {
        bytes_.erase(0, at_);
        at_ = 0;
        const ssize_t count = from(piece_.data(), piece_.size());
        if (count < 0) return errno == EAGAIN || errno == EINTR ? Look::None : Look::Failed;
        bytes_.append(piece_.data(), static_cast<std::size_t>(count));
        return count ? Look::Some : Look::End;
    }

    const std::string &bytes() const { return bytes_; }
    std::size_t at() const { return at_; }
    std::size_t size() const { return bytes_.size() - at_; }
    const char *data() const { return bytes_.data() + at_; }
    void take(std::size_t count) { at_ += count; }

    void clear() {
        bytes_.clear();
        at_ = 0;
    }

    void put(const std::string &bytes) { bytes_ += bytes; }

private:
    std::string bytes_;
    std::size_t at_ = 0;
    std::vector<char> piece_ = std::vector<char>(1 << 16);
};

}
