#pragma once

// A page for people and for Prometheus, by a thread of its own. No message passes here: status.h has what an edge
// shows.

#include <atomic>
#include <functional>
#include <string>
#include <thread>

#include "descriptor.h"

namespace edge {

/// A page on loopback alone. It only tells, and changes nothing.
class Page {
public:
    using Text = std::function<std::string()>;

    /// Shows the one text, and the other one at /metrics. Both are asked for by the page's thread.
    Page(int port, Text text, Text figures);
    ~Page();

private:
    void run();
    void answer(int socket) const;

    const Text text_, figures_;
    Descriptor listener_;
    std::atomic<bool> isStopping_{false};
    std::thread thread_;
};

}
