// Notes how often a program that it is loaded into by LD_PRELOAD looks for names in a record.
//
//   LOOKS        a file that gets a line for each look
#define _GNU_SOURCE
#include <sqlite3.h>
#include <stdlib.h>
#include <string.h>
#include <unistd.h>

#include "../../tests/calls.h"

static void say(const char *line) {
    const char *to = getenv("LOOKS");
    int file = to ? open(to, O_WRONLY | O_CREAT | O_APPEND | O_CLOEXEC, 0600) : -1;
    if (file < 0)
        return;
    if (write(file, line, strlen(line)) < 0)
        abort();
    close(file);
}

// The first step of a statement is a look, and each further one a row of that.
int sqlite3_step(sqlite3_stmt *statement) {
    REAL(int, sqlite3_step, sqlite3_stmt *);
    const char *words = sqlite3_sql(statement);
    if (!sqlite3_stmt_busy(statement) && words && strstr(words, "FROM names"))
        say("look\n");
    return real(statement);
}
