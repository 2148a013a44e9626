#include "take_over.h"

#include <quickfix/FileStore.h>

#include <algorithm>
#include <cstdio>
#include <ctime>
#include <fstream>
#include <vector>

#include "fields.h"
#include "files.h"
#include "lines.h"
#include "names.h"
#include "reports.h"

namespace edge {

namespace {

/// A line of a file of names, as "3bd9f1c4 17 r ORD-7": its number, its kind and its name.
struct Line {
    long number = 0;
    char kind = 0;
    std::string name;
};

[[noreturn]] void failAt(long line, const std::string &path) {
    throw DatabaseFault("line " + std::to_string(line) + " of " + path + " is none of a file of names");
}

Line lineOf(const std::string &text, long at, const std::string &path) {
    Line it;
    int end = 0;
    if (std::sscanf(text.c_str(), "%*8x %ld %c%n", &it.number, &it.kind, &end) != 2 ||
        static_cast<std::size_t>(end) >= text.size() || it.number < 0 || it.number > Names::GREATEST)
        failAt(at, path);
    it.name = text.substr(static_cast<std::size_t>(end) + 1);
    return it;
}

/// The names: a line each, behind one with the first number. A line that was cut short at the end was never sent. A
/// name that was refused has no number there, and gets one behind all others.
void takeNames(const std::string &path, Database &database, State &state) {
    std::ifstream file(path, std::ios::binary);
    std::string text;
    if (!std::getline(file, text) ||
        std::sscanf(text.c_str(), "%*8x gikvand-edge names 1 from %ld", &state.first) != 1 || state.first < 1 ||
        state.first > Names::GREATEST)
        failAt(1, path);
    state.last = state.first - 1;
    Statement put(database, "INSERT INTO names VALUES (?, ?, ?, ?)");
    Statement strike(database, "UPDATE names SET kind = 's' WHERE number = ?");
    std::vector<std::string> refused;
    for (long at = 2; std::getline(file, text) && !file.eof(); at++) {
        const Line line = lineOf(text, at, path);
        if (line.kind == 'x') refused.push_back(line.name);
        else if (line.kind == 's') strike.run(line.number);
        else put.run(line.number, std::string(1, line.kind), line.name, static_cast<long>(std::time(nullptr)));
        state.last = std::max(state.last, line.number);
    }
    for (const std::string &name : refused)
        put.run(++state.last, std::string("x"), name, static_cast<long>(std::time(nullptr)));
}

/// The numbers and messages of the library's store, and what these tell.
void takeStore(const Before &before, Database &database, State &state) {
    const FIX::FileStore store(before.storeFolder, before.session);
    state.sender = store.getNextSenderMsgSeqNum();
    state.target = store.getNextTargetMsgSeqNum();
    state.created = store.getCreationTime();
    Statement put(database, "INSERT INTO messages VALUES (?, ?)");
    Statement find(database, "SELECT max(number) FROM names WHERE name = ?");
    std::vector<std::string> messages;
    for (int number = 1; number < state.sender; number++) {
        store.get(number, number, messages);
        if (messages.empty()) continue;
        put.run(static_cast<long>(number), Blob{messages[0]});
        const Fields stored(messages[0].data(), messages[0].size(), '\1');
        if (!Reports::isOfVenue(stored)) continue;
        if (stored.byte(35) == '8') {
            state.told.report = std::max(state.told.report, stored.number(17));
        } else {
            const std::string name = stored.text(11);
            Rows rows = find.of(name);
            if (rows.next()) state.told.reject = std::max(state.told.reject, rows.number(0));
        }
    }
}

}

bool takeOver(const Before &before, const std::string &member, Database &database, State &state) {
    if (!isThere(before.names)) return false;
    takeNames(before.names, database, state);
    std::ifstream told(before.told);
    std::string line;
    if (std::getline(told, line) &&
        std::sscanf(line.c_str(), "%*8x told %ld %ld", &state.told.report, &state.told.reject) != 2)
        throw DatabaseFault("line 1 of " + before.told + " doesn't say what was told");
    try {
        if (!before.storeFolder.empty() && isThere(filesOf(before.storeFolder, before.session) + ".body"))
            takeStore(before, database, state);
    } catch (const FIX::Exception &why) {
        throw DatabaseFault("the store in " + before.storeFolder + " can't be read: " + why.detail);
    }
    say(member, "the names up to " + std::to_string(state.last) + " and the numbers " + std::to_string(state.sender) +
                    " and " + std::to_string(state.target) + " were taken over from " + before.names);
    return true;
}

void putAside(const Before &before) {
    if (std::rename(before.names.c_str(), (before.names + ".taken").c_str()))
        say("", "can't rename " + before.names + ", which isn't needed any more: " + reason());
}

}
