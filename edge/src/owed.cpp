#include "owed.h"

namespace edge {

Owed::Owed(const SessionRecord &record)
    : record_(record),
      isMade_(record.ofMember().database(), "SELECT 1 FROM sqlite_master WHERE name = 'owed'"),
      make_(record.ofMember().database(),
            "CREATE TABLE IF NOT EXISTS owed (next INTEGER NOT NULL, last INTEGER NOT NULL, sender INTEGER NOT NULL,"
            " count INTEGER NOT NULL)"),
      read_(record.ofMember().database(), "SELECT next, last, sender, count FROM owed WHERE rowid = ?"),
      put_(record.ofMember().database(), "INSERT INTO owed (rowid, next, last, sender, count) VALUES (?, ?, ?, ?, ?)"),
      drop_(record.ofMember().database(), "DELETE FROM owed WHERE rowid = ?") {}

void Owed::attach() {
    next_ = end_ = sender_ = count_ = 0;
    if (!record_.ofMember().database().isOpen() || !isMade_.of().next()) return;  // It is tried again, or owes nothing.
    Rows rows = read_.of(static_cast<long>(record_.desk()));
    if (!rows.next()) return;
    next_ = rows.number(0);
    end_ = rows.number(1);
    sender_ = rows.number(2);
    count_ = rows.number(3);
}

void Owed::begin(long next, long end) {
    next_ = next;
    end_ = end;
    count_ = 0;
    keep();
}

long Owed::reached(long next, std::size_t count) {
    next_ = next;
    count_ += static_cast<long>(count);
    keep();
    return count_;
}

void Owed::keep() {
    record_.ofMember().changeTables();
    make_.run();
    sender_ = record_.state().sender;
    const long desk = record_.desk();
    drop_.run(desk);
    if (isThere()) put_.run(desk, next_, end_, sender_, count_);
}

}
