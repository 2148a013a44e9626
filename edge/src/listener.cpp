#include "listener.h"

#include <arpa/inet.h>
#include <sys/socket.h>

#include <cstdint>
#include <stdexcept>

#include "lines.h"

namespace edge {

Descriptor listener(const std::string &host, int port) {
    Descriptor it(::socket(AF_INET, SOCK_STREAM | SOCK_NONBLOCK | SOCK_CLOEXEC, 0));
    if (!it) throw std::runtime_error("can't make a socket: " + reason());
    const int one = 1;
    ::setsockopt(it.get(), SOL_SOCKET, SO_REUSEADDR, &one, sizeof one);
    sockaddr_in address{};
    address.sin_family = AF_INET;
    address.sin_port = htons(static_cast<std::uint16_t>(port));
    ::inet_pton(AF_INET, host.c_str(), &address.sin_addr);
    if (::bind(it.get(), reinterpret_cast<const sockaddr *>(&address), sizeof address) || ::listen(it.get(), SOMAXCONN))
        throw std::runtime_error("can't listen on " + host + ":" + std::to_string(port) + ": " + reason());
    return it;
}

}
