#pragma once

#include <cstddef>
#include <string>

namespace edge {

/// What can't be read of a client since its last message that can: bytes that the framer passes over, and messages
/// without a right header. It stands between the framer and the member, which lets a client go that sends nothing else.
/// What it says doesn't depend on the pieces in which the bytes come, but for the line.
class PassedOver {
public:
    /// Of a client whose messages have so many bytes at most.
    explicit PassedOver(std::size_t longest) : mostBytes_(MOST * longest) {}

    /// The framer passes these bytes over, for good.
    void add(const char *from, std::size_t size);

    /// A message is passed over for its header.
    void add(const std::string &why);

    /// A message has come that can be read.
    void clear();

    /// What is to be said of it, or nothing: once of bytes that come in a row, however many pieces they are.
    std::string news();

    /// How much has come since the last look.
    struct Count {
        std::size_t messages = 0, bytes = 0;
    };
    Count fresh();

    /// Why it is too much, or nothing.
    std::string excess() const;

    /// Whether a message of another version of FIX came, which a session doesn't pass over.
    bool isOtherVersion() const { return isOtherVersion_; }

private:
    static constexpr std::size_t MOST = 10;

    const std::size_t mostBytes_;
    std::size_t messages_ = 0, bytes_ = 0;
    Count fresh_;
    bool isOtherVersion_ = false;
    std::string news_;
};

}
