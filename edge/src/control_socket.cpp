#include "control_socket.h"

#include <fcntl.h>
#include <sys/socket.h>
#include <sys/stat.h>
#include <sys/un.h>

#include <cstdio>
#include <stdexcept>

#include "lines.h"

namespace edge {

namespace {

constexpr int WAITING = 8;  // Connections that nobody has taken in yet.

std::string nameOf(const std::string &member, Callers callers) {
    return member + (callers == Callers::Operators ? ".control" : ".copies");
}

/// The address of a socket in a folder, by a descriptor of that: the system takes no path of more than 107 bytes.
class Address {
public:
    Address(const std::string &folder, const std::string &member, Callers callers)
        : folder_(::open(folder.c_str(), O_PATH | O_DIRECTORY | O_CLOEXEC)), name_(nameOf(member, callers)) {
        it_.sun_family = AF_UNIX;
        std::snprintf(it_.sun_path, sizeof it_.sun_path, "/proc/self/fd/%d/%s", folder_.get(), name_.c_str());
    }

    explicit operator bool() const { return static_cast<bool>(folder_); }
    const sockaddr *get() const { return reinterpret_cast<const sockaddr *>(&it_); }
    static socklen_t size() { return sizeof(sockaddr_un); }

    /// Takes away what stands there, if it is a socket.
    void clear() const {
        struct stat it;
        if (!::fstatat(folder_.get(), name_.c_str(), &it, AT_SYMLINK_NOFOLLOW) && S_ISSOCK(it.st_mode))
            ::unlinkat(folder_.get(), name_.c_str(), 0);
    }

private:
    const Descriptor folder_;
    const std::string name_;
    sockaddr_un it_{};
};

Descriptor madeSocket() {
    return Descriptor(::socket(AF_UNIX, SOCK_STREAM | SOCK_NONBLOCK | SOCK_CLOEXEC, 0));
}

}

std::string controlPath(const std::string &folder, const std::string &member, Callers callers) {
    return folder + "/" + nameOf(member, callers);
}

Descriptor controlListener(const std::string &folder, const std::string &member, Callers callers) {
    const Address address(folder, member, callers);
    if (address) address.clear();
    Descriptor it = madeSocket();
    // It has its mode before it has its name.
    if (!address || !it || ::fchmod(it.get(), 0600) || ::bind(it.get(), address.get(), Address::size()) ||
        ::listen(it.get(), WAITING))
        throw std::runtime_error("can't listen at " + controlPath(folder, member, callers) + ": " + reason());
    return it;
}

void endControl(const std::string &folder, const std::string &member, Callers callers) {
    const Address address(folder, member, callers);
    if (address) address.clear();
}

Descriptor controlConnection(const std::string &folder, const std::string &member, Callers callers) {
    const Address address(folder, member, callers);
    Descriptor it = address ? madeSocket() : Descriptor();
    if (it && ::connect(it.get(), address.get(), Address::size())) it.reset();
    return it;
}

}
