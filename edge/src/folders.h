#pragma once

#include <vector>

#include "descriptor.h"
#include "settings.h"

namespace edge {

/// Makes the folders of a member where they are missing, for the edge's user alone, keeps all others away from them
/// while these are held, and takes over what an edge of all members in one process has left in the folders of all. A
/// folder that can't be made or held is a BadSetting, and a file that can't be taken over a std::runtime_error.
std::vector<Descriptor> heldFolders(const Settings &settings);

/// Keeps a second edge of all members away from their common folder while these are held, if they have one.
std::vector<Descriptor> heldForAll(const std::vector<Settings> &members);

/// Where root asks, makes this process one of the user whose a folder is, or is to be: files that are made in it are
/// for the member's process.
void becomeOwner(const std::string &folder);

}
