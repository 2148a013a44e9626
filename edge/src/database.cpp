#include "database.h"

#include <algorithm>
#include <cerrno>

#include "files.h"
#include "lines.h"
#include "read_ahead.h"

namespace edge {

namespace {

// One user, whose index of the log needs no file. No commit writes the log into the file: record.h says when that is
// done, and a log that is longer than 2 MB is cut to that behind it.
const char *const SET_UP =
    "PRAGMA locking_mode = EXCLUSIVE; PRAGMA page_size = 2048; PRAGMA journal_mode = WAL; PRAGMA synchronous = FULL;"
    "PRAGMA wal_autocheckpoint = 0; PRAGMA journal_size_limit = 2097152; PRAGMA cache_size = -2048;"
    "PRAGMA secure_delete = OFF; PRAGMA temp_store = MEMORY";

}

void Database::open() {
    // SQLite is told once, before all else, to count no memory: each use of some would take a lock.
    static const int isUncounted = ::sqlite3_config(SQLITE_CONFIG_MEMSTATUS, 0);
    (void)isUncounted;
    close();
    try {
        makeFile(path_);
    } catch (const std::runtime_error &why) {
        fail(why.what());
    }
    const int result =
        ::sqlite3_open_v2(path_.c_str(), &handle_, SQLITE_OPEN_READWRITE | SQLITE_OPEN_NOMUTEX, readAhead());
    try {
        if (result != SQLITE_OK) fail();
        ::sqlite3_db_config(handle_, SQLITE_DBCONFIG_NO_CKPT_ON_CLOSE, 1, nullptr);
        run(SET_UP);
        Statement mode(*this, "PRAGMA journal_mode");
        Rows rows = mode.of();
        if (!rows.next() || rows.bytes(0) != "wal") fail("it can't have a log of its own beside it");
        findPageSize();
    } catch (const DatabaseFault &) {
        close();
        throw;
    }
}

/// Lets SQLite say behind each commit how long the log is.
void Database::findPageSize() {
    Statement size(*this, "PRAGMA page_size");
    Rows rows = size.of();
    pageSize_ = rows.next() ? rows.number(0) : 0;
    pages_ = 0;
    const auto note = [](void *pages, sqlite3 *, const char *, int count) {
        *static_cast<long *>(pages) = count;
        return SQLITE_OK;
    };
    ::sqlite3_wal_hook(handle_, note, &pages_);
}

/// As where SQLite itself does so, a log that can't be put into the file now only grows: a commit says what is wrong.
void Database::shortenLog() {
    ::sqlite3_wal_checkpoint_v2(handle_, nullptr, SQLITE_CHECKPOINT_PASSIVE, nullptr, nullptr);
    pages_ = 0;
}

void Database::close() {
    for (Statement *const it : statements_) it->forget();
    ::sqlite3_close(handle_);
    handle_ = nullptr;
}

void Database::closeWhole() {
    ::sqlite3_db_config(handle_, SQLITE_DBCONFIG_NO_CKPT_ON_CLOSE, 0, nullptr);
    close();
}

void Database::run(const std::string &words) {
    if (!handle_) fail("it isn't open");
    if (::sqlite3_exec(handle_, words.c_str(), nullptr, nullptr, nullptr) != SQLITE_OK) fail();
}

void Database::fail(const std::string &why) const {
    throw DatabaseFault(path_ + ": " + why);
}

void Database::fail() const {
    if (!handle_) fail("there is no memory for it");
    const int kind = ::sqlite3_errcode(handle_) & 0xff;
    const std::string why = ::sqlite3_errmsg(handle_);
    errno = ::sqlite3_system_errno(handle_);
    fail(kind == SQLITE_IOERR || kind == SQLITE_CANTOPEN ? why + ": " + reason() : why);
}

Statement::Statement(Database &database, const char *words) : database_(database), words_(words) {
    database_.statements_.push_back(this);
}

Statement::~Statement() {
    forget();
    auto &all = database_.statements_;
    all.erase(std::find(all.begin(), all.end(), this));
}

void Statement::forget() {
    ::sqlite3_finalize(handle_);
    handle_ = nullptr;
}

void Statement::check(int result) const {
    if (result != SQLITE_OK) database_.fail();
}

void Statement::compile() {
    if (handle_) return;
    if (!database_.handle_) database_.fail("it isn't open");
    check(::sqlite3_prepare_v3(database_.handle_, words_, -1, SQLITE_PREPARE_PERSISTENT, &handle_, nullptr));
}

void Statement::putAt(int at, long value) {
    check(::sqlite3_bind_int64(handle_, at, value));
}

void Statement::putAt(int at, const std::string &text) {
    check(::sqlite3_bind_text(handle_, at, text.data(), static_cast<int>(text.size()), SQLITE_STATIC));
}

void Statement::putAt(int at, const Blob &blob) {
    check(::sqlite3_bind_blob(handle_, at, blob.bytes.data(), static_cast<int>(blob.bytes.size()), SQLITE_STATIC));
}

Rows::~Rows() {
    if (statement_ && statement_->handle_) ::sqlite3_reset(statement_->handle_);
}

bool Rows::next() {
    const int result = ::sqlite3_step(statement_->handle_);
    if (result == SQLITE_ROW) return true;
    if (result != SQLITE_DONE) statement_->database_.fail();
    return false;
}

long Rows::number(int column) const {
    return ::sqlite3_column_int64(statement_->handle_, column);
}

std::string Rows::bytes(int column) const {
    const void *const data = ::sqlite3_column_blob(statement_->handle_, column);
    const int size = ::sqlite3_column_bytes(statement_->handle_, column);
    return data ? std::string(static_cast<const char *>(data), static_cast<std::size_t>(size)) : std::string();
}

}
