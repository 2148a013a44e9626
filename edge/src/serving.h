#pragma once

namespace edge {

/// How far a member, or one of its venues, is with what its own client needs to log on.
enum class Serving { WaitsForVenue, ReadsJournal, TellsAgain, Serves, IsNotServed };

/// A state in words.
const char *wordsOf(Serving state);

}
