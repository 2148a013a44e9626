// Reads and writes a file as SQLite does, for tests: a line of standard input is `read AT SIZE`, `write AT SIZE VALUE`,
// which puts so many bytes of this value there, `truncate SIZE`, or `lock`. It answers a read by its bytes as numbers
// of two digits, with `short` behind what isn't all, and by how many reads of the system and bytes of these that took;
// all else by `done`.
#include <sqlite3.h>

#include <cstdio>
#include <fstream>
#include <iostream>
#include <string>
#include <vector>

#include "read_ahead.h"

namespace {

/// What this process has read so far.
struct Reads {
    long bytes = 0, count = 0;
};

Reads reads() {
    std::ifstream file("/proc/self/io");
    Reads it;
    std::string name;
    for (long value; file >> name >> value;) {
        if (name == "rchar:") it.bytes = value;
        if (name == "syscr:") it.count = value;
    }
    return it;
}

}

int main(int, char **words) {
    std::ios::sync_with_stdio(false);
    sqlite3_vfs *const files = ::sqlite3_vfs_find(edge::readAhead());
    std::vector<long> place(static_cast<std::size_t>(files->szOsFile) / sizeof(long) + 1);
    sqlite3_file *const file = reinterpret_cast<sqlite3_file *>(place.data());
    int flags = SQLITE_OPEN_READWRITE | SQLITE_OPEN_CREATE | SQLITE_OPEN_MAIN_DB;
    if (files->xOpen(files, words[1], file, flags, &flags) != SQLITE_OK) return 1;
    long at, size;
    int value;
    for (std::string what; std::cin >> what;) {
        int result = SQLITE_OK;
        if (what == "read" && std::cin >> at >> size) {
            std::vector<unsigned char> bytes(static_cast<std::size_t>(size));
            const Reads before = reads();
            result = file->pMethods->xRead(file, bytes.data(), static_cast<int>(size), at);
            const Reads after = reads(), later = reads();  // These looks are reads themselves.
            for (const unsigned char it : bytes) {
                char text[3];
                std::snprintf(text, sizeof text, "%02x", it);
                std::cout << text;
            }
            if (result == SQLITE_IOERR_SHORT_READ) result = (std::cout << " short", SQLITE_OK);
            std::cout << " " << 2 * after.count - before.count - later.count << " "
                      << 2 * after.bytes - before.bytes - later.bytes << std::endl;
        } else if (what == "write" && std::cin >> at >> size >> value) {
            const std::vector<unsigned char> bytes(static_cast<std::size_t>(size), static_cast<unsigned char>(value));
            result = file->pMethods->xWrite(file, bytes.data(), static_cast<int>(size), at);
            std::cout << "done" << std::endl;
        } else if (what == "truncate" && std::cin >> size) {
            result = file->pMethods->xTruncate(file, size);
            std::cout << "done" << std::endl;
        } else if (what == "lock") {
            result = file->pMethods->xLock(file, SQLITE_LOCK_SHARED);
            if (result == SQLITE_OK) result = file->pMethods->xUnlock(file, SQLITE_LOCK_NONE);
            std::cout << "done" << std::endl;
        }
        if (result != SQLITE_OK) return 1;
    }
    return file->pMethods->xClose(file) == SQLITE_OK ? 0 : 1;
}
