#pragma once

#include <quickfix/SessionID.h>

#include <string>

namespace edge {

/// The beginning of the names of a session's files in a folder, as the library has them.
std::string filesOf(const std::string &folder, const FIX::SessionID &session);

/// Whether there is a file of this path.
bool isThere(const std::string &path);

/// The second in which a file was changed, or put where it is, by the system's clock; 0 where nothing is in it, or
/// there is none.
long changeTime(const std::string &path);

/// What a short file begins with; nothing where it can't be read.
std::string firstBytes(const std::string &path);

/// Makes an empty file for its owner alone, unless it is there. Throws a std::runtime_error where it can't.
void makeFile(const std::string &path);

/// Syncs the folder of a file and those above that may be read, so that a power cut leaves its name and theirs, whoever
/// has made them. Throws a std::runtime_error where it can't.
void syncFoldersOf(const std::string &path);

/// Writes all these bytes, or throws a std::runtime_error: a part of them may have been written then.
void writeAll(int fd, const std::string &bytes, const std::string &path);

/// Puts a whole file of these bytes there, or none: a power cut leaves no part of one. Throws a std::runtime_error
/// where that can't be done.
void writeWhole(const std::string &path, const std::string &bytes);

/// Syncs what a folder has, so that a power cut doesn't undo a rename; throws a std::runtime_error where it can't.
void syncFolder(const std::string &folder);

}
