#pragma once

// What an operator says in a shell, on its way to the processes of members: control.h answers there. What is said of a
// session's numbers is carried out here where no process runs.

#include <string>
#include <vector>

#include "commands.h"

namespace edge {

/// What the words of a command line ask for of members.
struct Call {
    Command command;
    std::string member;              // Empty: all of them.
    std::vector<std::string> paths;  // Of settings, or of folders of such files.
};

/// Whether a command line that begins so asks something of members.
bool isVerb(const std::string &word);

/// Reads such a command line. Whether its words are right.
bool readCall(const std::vector<std::string> &words, Call &into);

/// Asks each of these members, and prints what came of it: the status, 1 where something couldn't be done. What is
/// wrong in the settings is a BadSetting.
int callMembers(const Call &it);

}
