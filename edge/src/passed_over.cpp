#include "passed_over.h"

#include <algorithm>

#include "lines.h"

namespace edge {

namespace {

const std::string BEGIN = "8=FIX", VERSION = "8=FIX.4.4\1";
constexpr std::size_t SHOWN = 256;  // As much of it is looked at for a line.

/// Whether a BeginString of another version stands there. One that breaks off where a message may begin is none.
bool isOther(const char *at, const char *end) {
    const auto differs = std::mismatch(VERSION.begin(), VERSION.end(), at, end);
    return differs.first != VERSION.end() && differs.second != end && *differs.second != VERSION[0];
}

}

void PassedOver::add(const char *from, std::size_t size) {
    // The first piece alone is shown: a later one might begin within a password.
    if (!bytes_) news_ = shown(masked('\1' + std::string(from, std::min(size, SHOWN))).substr(1));
    bytes_ += size;
    fresh_.bytes += size;
    // The framer keeps what may be a BeginString until the first byte that is another: so each is in one piece here.
    const char *const end = from + size;
    for (const char *at = from; (at = std::search(at, end, BEGIN.begin(), BEGIN.end())) != end; at++) {
        messages_++;
        fresh_.messages++;
        isOtherVersion_ = isOtherVersion_ || isOther(at, end);
    }
}

void PassedOver::add(const std::string &why) {
    messages_++;
    fresh_.messages++;
    news_ = why;
}

void PassedOver::clear() {
    messages_ = bytes_ = 0;
}

std::string PassedOver::news() {
    std::string it;
    it.swap(news_);
    return it;
}

PassedOver::Count PassedOver::fresh() {
    const Count it = fresh_;
    fresh_ = Count();
    return it;
}

std::string PassedOver::excess() const {
    if (messages_ >= MOST) return std::to_string(MOST) + " messages in a row can't be read";
    if (bytes_ > mostBytes_) return "more than " + std::to_string(mostBytes_) + " bytes in a row are no message";
    return "";
}

}
