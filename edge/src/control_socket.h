#pragma once

// The sockets of a member's process in the member's folder. By one an operator's commands come: control.h listens
// there, and console.h connects to it. By the other the questions come of a session that copies the member's reports,
// of name_asker.h.

#include <string>

#include "descriptor.h"

namespace edge {

/// Who calls at a socket.
enum class Callers { Operators, Copies };

/// Its path, of this member and in this folder of the member.
std::string controlPath(const std::string &folder, const std::string &member, Callers callers);

/// A socket that listens there, and that the user of this process alone may connect to. One that a killed process has
/// left is taken away: the folder is held by this one. Throws a std::runtime_error where it can't.
Descriptor controlListener(const std::string &folder, const std::string &member, Callers callers);

/// Takes the socket away.
void endControl(const std::string &folder, const std::string &member, Callers callers);

/// A connection to it, or none, where errno says why. It doesn't wait.
Descriptor controlConnection(const std::string &folder, const std::string &member, Callers callers);

}
