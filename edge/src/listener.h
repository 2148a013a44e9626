#pragma once

// Where others come in over TCP: members by door.h, and browsers by page.h.

#include <string>

#include "descriptor.h"

namespace edge {

/// A socket that listens there; throws a std::runtime_error where it can't.
Descriptor listener(const std::string &host, int port);

}
