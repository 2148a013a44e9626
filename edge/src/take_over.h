#pragma once

// The first start on the files of an edge of before. No message passes here: record.h calls it once, where it makes a
// database.

#include <quickfix/SessionID.h>

#include <string>

#include "database.h"
#include "state.h"

namespace edge {

/// Where an edge of before kept a member's names, and what its session had: in files of its own and of the library.
struct Before {
    std::string names, told, storeFolder;
    FIX::SessionID session;
};

/// Takes over what these files have into a new database. Whether there are some; throws DatabaseFault where one can't
/// be read.
bool takeOver(const Before &before, const std::string &member, Database &database, State &state);

/// Gives the file of names another name, so that nothing is taken over twice.
void putAside(const Before &before);

}
