#include "read_ahead.h"

#include <sqlite3.h>

#include <algorithm>
#include <cstring>
#include <memory>
#include <new>

namespace edge {

namespace {

const char *const NAME = "gikvand-read-ahead";
constexpr int PIECE = 1 << 17;  // As much as FUSE asks for in one go.

/// Where an open file of SQLite's begins. The system's own file stands behind it in the same memory, and does all else.
class File : public sqlite3_file {
public:
    explicit File(bool isAhead) : isAhead_(isAhead) {}

    sqlite3_file *own() { return reinterpret_cast<sqlite3_file *>(this + 1); }
    const sqlite3_io_methods &system() { return *own()->pMethods; }

    int read(void *to, int size, sqlite3_int64 at);

    /// What was read ahead may be another one's bytes of before.
    void forget() { count_ = 0; }

    /// From now on what is read is asked of the system.
    void end();

private:
    bool has(int size, sqlite3_int64 at) const { return at >= at_ && at + size <= at_ + count_; }
    void readPiece(sqlite3_int64 at);

    bool isAhead_;
    std::unique_ptr<char[]> piece_;
    sqlite3_int64 at_ = 0;  // Of the piece, and its bytes.
    int count_ = 0;
    sqlite3_int64 begin_ = 0, end_ = 0;  // Of the last read.
};

/// Who reads on from where the last read was, or back from there, mostly goes on so: a log is read forwards, and the
/// pages of a table, where SQLite looks whether they are right, from the last one on.
int File::read(void *to, int size, sqlite3_int64 at) {
    const bool goesOn = at >= end_ && at - end_ < PIECE, goesBack = at < begin_ && begin_ - at < PIECE;
    begin_ = at;
    end_ = at + size;
    if (isAhead_ && !has(size, at) && (goesOn || goesBack))
        readPiece(goesOn ? at : std::max<sqlite3_int64>(0, end_ - PIECE));
    if (!has(size, at)) return system().xRead(own(), to, size, at);
    std::memcpy(to, piece_.get() + (at - at_), static_cast<std::size_t>(size));
    return SQLITE_OK;
}

/// Reads from here on as much as there is, up to a piece. What can't be had so is asked for as it was asked.
void File::readPiece(sqlite3_int64 at) {
    forget();
    if (!piece_) piece_.reset(new (std::nothrow) char[PIECE]);
    sqlite3_int64 size = 0;
    if (!piece_ || system().xFileSize(own(), &size) != SQLITE_OK || size <= at) return;
    const int count = static_cast<int>(std::min<sqlite3_int64>(PIECE, size - at));
    if (system().xRead(own(), piece_.get(), count, at) != SQLITE_OK) return;
    at_ = at;
    count_ = count;
}

void File::end() {
    isAhead_ = false;
    forget();
    piece_.reset();
}

File &of(sqlite3_file *file) {
    return *static_cast<File *>(file);
}

int close(sqlite3_file *file) {
    const int result = of(file).system().xClose(of(file).own());
    of(file).~File();
    return result;
}

int read(sqlite3_file *file, void *to, int size, sqlite3_int64 at) {
    return of(file).read(to, size, at);
}

int write(sqlite3_file *file, const void *from, int size, sqlite3_int64 at) {
    of(file).end();
    return of(file).system().xWrite(of(file).own(), from, size, at);
}

int truncate(sqlite3_file *file, sqlite3_int64 size) {
    of(file).end();
    return of(file).system().xTruncate(of(file).own(), size);
}

int sync(sqlite3_file *file, int how) {
    return of(file).system().xSync(of(file).own(), how);
}

int fileSize(sqlite3_file *file, sqlite3_int64 *size) {
    return of(file).system().xFileSize(of(file).own(), size);
}

/// Until it was locked somebody else may have written to it.
int lock(sqlite3_file *file, int how) {
    of(file).forget();
    return of(file).system().xLock(of(file).own(), how);
}

int unlock(sqlite3_file *file, int how) {
    return of(file).system().xUnlock(of(file).own(), how);
}

int isReserved(sqlite3_file *file, int *is) {
    return of(file).system().xCheckReservedLock(of(file).own(), is);
}

int control(sqlite3_file *file, int what, void *value) {
    return of(file).system().xFileControl(of(file).own(), what, value);
}

int sectorSize(sqlite3_file *file) {
    return of(file).system().xSectorSize(of(file).own());
}

int characteristics(sqlite3_file *file) {
    return of(file).system().xDeviceCharacteristics(of(file).own());
}

/// Those of the first version: a log whose index is in memory needs no others.
const sqlite3_io_methods METHODS = {
    1,          close,           read,    write,   truncate, sync,    fileSize, lock,   unlock, isReserved, control,
    sectorSize, characteristics, nullptr, nullptr, nullptr,  nullptr, nullptr,  nullptr};

sqlite3_vfs *systems() {
    static sqlite3_vfs *const it = ::sqlite3_vfs_find(nullptr);
    return it;
}

int open(sqlite3_vfs *, const char *name, sqlite3_file *place, int flags, int *given) {
    File *const file = new (place) File(flags & (SQLITE_OPEN_MAIN_DB | SQLITE_OPEN_WAL));
    const int result = systems()->xOpen(systems(), name, file->own(), flags, given);
    file->pMethods = file->own()->pMethods ? &METHODS : nullptr;
    if (!file->pMethods) file->~File();  // Nobody closes it.
    return result;
}

}

const char *readAhead() {
    static sqlite3_vfs files;
    static const int isKnown = [] {
        files = *systems();
        files.szOsFile = static_cast<int>(sizeof(File)) + systems()->szOsFile;
        files.zName = NAME;
        files.pNext = nullptr;
        files.xOpen = open;
        return ::sqlite3_vfs_register(&files, 0);
    }();
    return isKnown == SQLITE_OK ? NAME : nullptr;  // Else as the system reads.
}

}
