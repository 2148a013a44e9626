#pragma once

// How a member's process tells the names of its requests to one that copies its reports: in one line, which operators.h
// answers over the socket for that (control_socket.h), and name_asker.h reads.

#include <map>
#include <string>

#include "names.h"

namespace edge {

/// What a report of a number says of it: the name, whether its request ended a Day order, or an order for an operator,
/// and whether nobody knows which desk sent it.
struct ToldName {
    std::string name;
    bool isExpiry = false, isOfOperator = false, isOfNoDesk = false;
    std::string compId;  // That of its desk, where it isn't of the first one; else nothing.
};

/// Names of one member, as its record has them since an opening of that, and the CompID that its process has of the first
/// desk.
struct ToldNames {
    long opening = 0;
    std::string compId;
    std::map<long, ToldName> names;  // By their numbers.
};

/// The names from this number on, as many as a line has room for; none where that number is above all. Each desk has a
/// CompID.
std::string toldNames(const std::function<std::string(int)> &compIdOf, long from, Names &names);

/// Reads such a line, whose process may have been broken into: only what prints is taken. Whether it is whole.
bool readToldNames(const std::string &line, ToldNames &into);

}
