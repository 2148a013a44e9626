#pragma once

#include <string>
#include <vector>

namespace edge {

/// Keeps a process for each of these members of a settings file, and starts one anew that ends, until SIGTERM or
/// SIGINT: its status, 0 where all of them ended in order then. The processes end with this one, whatever ends it.
int keepAll(const std::string &path, const std::vector<std::string> &members);

}
