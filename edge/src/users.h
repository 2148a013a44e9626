#pragma once

#include <sys/types.h>

#include <string>

namespace edge {

/// A user of this machine, by its own files alone.
struct User {
    uid_t number;
    gid_t group;
};

/// Finds the user of this name, or the group: whether there is one.
bool findUser(const std::string &name, User &into);
bool findGroup(const std::string &name, gid_t &into);

/// A user as an operator's line has one, `root (uid 0)`. The name is by the machine's own file alone: no other place of
/// names may hold a command up.
std::string userOf(uid_t number);

}
