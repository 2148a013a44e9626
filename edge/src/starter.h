#pragma once

#include <string>

#include "descriptor.h"

namespace edge {

/// The variable of the environment that has the descriptor by which `gikvand-edge --all` hears that a process listens.
constexpr const char *READY = "GIKVAND_EDGE_READY";

/// Who started this process and waits to hear that it listens: `gikvand-edge --all`, systemd by the socket of
/// NOTIFY_SOCKET as sd_notify(3) has it, or nobody.
class Starter {
public:
    /// Takes both out of the environment: no child of this process has them.
    Starter();

    /// Tells that it listens, once. Whoever doesn't hear that holds nothing up.
    void tell();

private:
    Descriptor all_;
    std::string system_;
};

}
