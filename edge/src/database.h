#pragma once

// A thin layer over SQLite: a database, its statements and their rows, with exceptions in place of codes. No message
// passes here by itself: record.h, names.h and store.h write through it.

#include <sqlite3.h>

#include <stdexcept>
#include <string>
#include <type_traits>
#include <vector>

namespace edge {

/// What a database can't do, in words that begin with its file.
class DatabaseFault : public std::runtime_error {
    using std::runtime_error::runtime_error;
};

class Statement;

/// A database of SQLite in one file, which nobody else can use while it is open. Its log is synced at each commit.
/// Whatever fails is a DatabaseFault.
class Database {
public:
    explicit Database(const std::string &path) : path_(path) {}
    ~Database() { close(); }
    Database(const Database &) = delete;
    Database &operator=(const Database &) = delete;

    /// Opens the file, or makes it, for its owner alone.
    void open();

    /// Ends the use of the file, which isn't written to any more: what wasn't committed is lost.
    void close();

    /// Ends the use of the file, behind a commit: all of it stands in the one file then.
    void closeWhole();

    bool isOpen() const { return handle_; }
    const std::string &path() const { return path_; }

    /// So many bytes of its log aren't in the file yet.
    long logged() const { return pages_ * pageSize_; }

    /// Puts the log into the file, so that it begins anew with the next commit, unless the disk takes nothing now.
    void shortenLog();

    /// Runs words that have neither values nor rows.
    void run(const std::string &words);

    [[noreturn]] void fail(const std::string &why) const;

private:
    friend class Rows;
    friend class Statement;
    [[noreturn]] void fail() const;
    void findPageSize();

    const std::string path_;
    sqlite3 *handle_ = nullptr;
    long pages_ = 0, pageSize_ = 0;  // Of the log.
    std::vector<Statement *> statements_;
};

/// The rows of a statement that runs. Its end makes the statement ready for other values.
class Rows {
public:
    explicit Rows(Statement &statement) : statement_(&statement) {}
    Rows(Rows &&other) noexcept : statement_(other.statement_) { other.statement_ = nullptr; }
    ~Rows();

    /// Goes to the next row, the first time to the first. Whether there is one.
    bool next();

    long number(int column) const;
    std::string bytes(int column) const;

private:
    Statement *statement_;
};

/// Bytes of any values, as a message has them.
struct Blob {
    const std::string &bytes;
};

/// A statement of a database, which is compiled once each time that the database is opened.
class Statement {
public:
    Statement(Database &database, const char *words);
    ~Statement();
    Statement(const Statement &) = delete;
    Statement &operator=(const Statement &) = delete;

    /// Its rows, with these values at its marks. One Rows of a statement may be there at a time. Texts aren't copied:
    /// each has to stay as it is while there are rows.
    template <class... Values>
    Rows of(Values &&...values) {
        static_assert(areKept<Values...>(), "a text that ends before its rows do");
        put(values...);
        return Rows(*this);
    }

    /// Runs it to its end, with these values.
    template <class... Values>
    void run(const Values &...values) {
        put(values...);
        for (Rows rows(*this); rows.next();) {}
    }

private:
    friend class Database;
    friend class Rows;

    template <class... Values>
    static constexpr bool areKept() {
        bool are = true;
        const bool each[] = {true, (std::is_lvalue_reference<Values>::value || std::is_arithmetic<Values>::value)...};
        for (const bool it : each) are = are && it;
        return are;
    }

    template <class... Values>
    void put(const Values &...values) {
        compile();
        int at = 0;
        const int each[] = {0, (putAt(++at, values), 0)...};
        (void)each;
    }

    void compile();
    void forget();
    void putAt(int at, long value);
    void putAt(int at, const std::string &text);
    void putAt(int at, const Blob &blob);
    void check(int result) const;

    Database &database_;
    const char *const words_;
    sqlite3_stmt *handle_ = nullptr;
};

}
