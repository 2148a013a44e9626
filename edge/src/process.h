#pragma once

#include <string>

#include "commands.h"
#include "settings.h"

namespace edge {

/// Serves this member in this process, until SIGTERM or SIGINT. Throws where it can't be begun.
void serveMember(const Settings &settings);

/// Carries a command out in the place of this member's process, which doesn't run: the outcome, as a process answers
/// it. Where root asks this is done as the user whose the member's folder is. Throws where it can't be begun, as where
/// the process does run.
std::string actAlone(const Settings &settings, const Command &command);

}
