#pragma once

namespace edge {

/// The greatest number of a session that anybody may set: so numbers never have more than nine digits.
constexpr long MOST_NUMBER = 900000000;

/// That an engine may let numbers go up at once.
constexpr long MOST_STEP = 100000000;

}
