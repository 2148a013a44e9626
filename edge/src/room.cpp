#include "room.h"

#include <sys/statvfs.h>

#include <stdexcept>

#include "lines.h"

namespace edge {

namespace {
constexpr std::chrono::milliseconds EACH(20);
}

bool Room::isThere() {
    const auto now = Clock::now();
    if (now - at_ < EACH) return isThere_;
    at_ = now;
    struct statvfs it;
    if (::statvfs(folder_.c_str(), &it)) throw std::runtime_error("can't look at " + folder_ + ": " + reason());
    isThere_ = static_cast<std::uint64_t>(it.f_bavail) * it.f_frsize >= least_;
    return isThere_;
}

}
