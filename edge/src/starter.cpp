#include "starter.h"

#include <fcntl.h>
#include <sys/socket.h>
#include <sys/un.h>

#include <algorithm>
#include <cerrno>
#include <cstddef>
#include <cstdlib>

#include "lines.h"

namespace edge {

namespace {

constexpr const char *SYSTEMS = "NOTIFY_SOCKET";

/// What a variable of the environment has, which has nothing from then on.
std::string taken(const char *name) {
    const char *const text = std::getenv(name);
    const std::string it = text ? text : "";
    ::unsetenv(name);
    return it;
}

/// Whether systemd was told, at this path, or at this name without a path, which begins with `@`.
bool isTold(const std::string &path) {
    const char word[] = "READY=1";
    sockaddr_un at{};
    errno = ENAMETOOLONG;
    if (path.size() > sizeof at.sun_path) return false;
    at.sun_family = AF_UNIX;
    std::copy(path.begin(), path.end(), at.sun_path);
    if (path[0] == '@') at.sun_path[0] = '\0';
    const auto size = static_cast<socklen_t>(offsetof(sockaddr_un, sun_path) + path.size());
    const Descriptor it(::socket(AF_UNIX, SOCK_DGRAM | SOCK_CLOEXEC, 0));
    return it && ::sendto(it.get(), word, sizeof word - 1, MSG_NOSIGNAL, reinterpret_cast<const sockaddr *>(&at), size) > 0;
}

}

Starter::Starter() : system_(taken(SYSTEMS)) {
    const std::string fd = taken(READY);
    if (!fd.empty()) all_.reset(std::atoi(fd.c_str()));
    if (all_) ::fcntl(all_.get(), F_SETFD, FD_CLOEXEC);
}

void Starter::tell() {
    if (all_ && ::write(all_.get(), "r", 1) < 0) say("", "who started it doesn't listen: " + reason());
    if (!system_.empty() && !isTold(system_)) say("", "systemd isn't told that it listens: " + reason());
    all_.reset();
    system_.clear();
}

}
