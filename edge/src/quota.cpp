#include "quota.h"

#include <dirent.h>
#include <fcntl.h>
#include <sys/stat.h>

#include <cerrno>
#include <memory>
#include <stdexcept>

#include "lines.h"

namespace edge {

namespace {

constexpr std::chrono::milliseconds EACH(200);
constexpr std::uint64_t BLOCK = 512;  // What stat counts in, whatever the disk's own blocks are.

struct Close {
    void operator()(DIR *folder) const { ::closedir(folder); }
};

std::uint64_t bytesIn(const std::string &path) {
    const std::unique_ptr<DIR, Close> folder(::opendir(path.c_str()));
    if (!folder) throw std::runtime_error("can't look at " + path + ": " + reason());
    std::uint64_t bytes = 0;
    while (const dirent *entry = ::readdir(folder.get())) {
        struct stat it;
        if (::fstatat(::dirfd(folder.get()), entry->d_name, &it, AT_SYMLINK_NOFOLLOW)) continue;  // It has gone.
        if (S_ISREG(it.st_mode)) bytes += static_cast<std::uint64_t>(it.st_blocks) * BLOCK;
    }
    return bytes;
}

}

bool Quota::isKept() {
    const auto now = Clock::now();
    if (now - at_ < EACH) return isKept_;
    at_ = now;
    std::uint64_t bytes = 0;
    for (const std::string &folder : folders_) bytes += bytesIn(folder);
    isKept_ = bytes <= most_;
    return isKept_;
}

}
