#include "page.h"

#include <poll.h>
#include <sys/socket.h>

#include <utility>

#include "listener.h"

namespace edge {

namespace {

constexpr int PATIENCE = 500;  // Milliseconds for a request.

bool waits(int fd, int milliseconds) {
    pollfd it{fd, POLLIN, 0};
    return ::poll(&it, 1, milliseconds) > 0;
}

}

Page::Page(int port, Text text, Text figures)
    : text_(std::move(text)),
      figures_(std::move(figures)),
      listener_(listener("127.0.0.1", port)),
      thread_([this] { run(); }) {}

Page::~Page() {
    isStopping_ = true;
    thread_.join();
}

void Page::run() {
    while (!isStopping_) {
        if (!waits(listener_.get(), PATIENCE)) continue;
        const Descriptor socket(::accept4(listener_.get(), nullptr, nullptr, SOCK_NONBLOCK | SOCK_CLOEXEC));
        if (socket) answer(socket.get());
        else ::poll(nullptr, 0, PATIENCE);
    }
}

void Page::answer(int socket) const {
    char asked[8192];  // A browser's whole request: what isn't read of it would cut the answer short.
    if (!waits(socket, PATIENCE)) return;
    const ssize_t count = ::recv(socket, asked, sizeof asked, 0);
    if (count <= 0) return;
    const bool isFigures = !std::string(asked, static_cast<std::size_t>(count)).compare(0, 12, "GET /metrics");
    const std::string body = isFigures ? figures_() : text_();
    const std::string page =
        "HTTP/1.0 200 OK\r\nContent-Type: text/plain; charset=utf-8\r\nContent-Length: " + std::to_string(body.size()) +
        "\r\n\r\n" + body;
    if (::send(socket, page.data(), page.size(), MSG_NOSIGNAL) < 0) return;  // Who asked has gone.
}

}
