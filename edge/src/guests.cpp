#include "guests.h"

#include <algorithm>
#include <map>

namespace edge {

namespace {

constexpr std::chrono::seconds OLD(2);  // Who has said nothing for so long may go: an engine speaks at once.

struct Count {
    std::size_t count = 0, oldest = 0;
};

}

Guests::Guests(const std::vector<Waiting> &waiting, std::uint32_t address, std::chrono::steady_clock::time_point now) {
    std::map<std::uint32_t, Count> all;
    for (std::size_t at = waiting.size(); at-- > 0;) {
        Count &it = all[waiting[at].address];
        it.count++;
        it.oldest = at;
    }
    const auto isOld = [&](std::size_t at) { return now - waiting[at].since >= OLD; };
    const Count own = all[address];
    if (own.count >= SHARE) {
        if (isOld(own.oldest)) takePlaceOf(own.oldest);
        return;
    }
    if (waiting.size() < MOST) {
        way_ = Way::Free;
        return;
    }
    const auto most = std::max_element(all.begin(), all.end(), [](const auto &one, const auto &other) {
        return one.second.count < other.second.count;
    });
    if (most->second.count > own.count + 1) takePlaceOf(most->second.oldest);
    else if (isOld(0)) takePlaceOf(0);
}

}
