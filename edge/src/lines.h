#pragma once

#include <string>

namespace edge {

/// Lets each line begin with the name of this program, in the place of the edge's.
void speakAs(const std::string &program);

/// Lets each line that is about no member be about this one, whose process this is.
void speakFor(const std::string &who);

/// Writes a line about a member, or about the edge where the name is empty, to standard error, in one piece. Where that
/// takes nothing the line is lost, so that nobody waits for it. Of lines of one kind so many are written in each second:
/// the others are counted, and `sayCounts` says how many there were.
void say(const std::string &who, const std::string &what, int mostInASecond = 20);

/// Says how many lines weren't written, where that is due: whoever turns anyway calls it.
void sayCounts();

/// A text of others for a line: fields end with bars, bytes that don't print are \x and two digits, and a long one is
/// cut.
std::string shown(const std::string &text);

/// A text of others with each byte that doesn't print as \x and two digits, but for those that end fields.
std::string printed(const std::string &text);

/// A message with its passwords masked.
std::string masked(std::string message);

/// What the system says of its last error, in words.
std::string reason();

}
