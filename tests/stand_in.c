// Stands in for a program that starts on a journal, so that tests/test_long_journal.py is shown wrong ones:
//
//   stand_in WRONG ANSWER JOURNAL
//
// It reads the journal, and then prints the file ANSWER. WRONG is what is wrong with it. keeps: for each four bytes of
// the journal it keeps one; twice: it reads the journal twice; most: it says that it has no memory for a long one; or
// nothing of these.
#include <fcntl.h>
#include <stdio.h>
#include <stdlib.h>
#include <string.h>
#include <sys/types.h>
#include <unistd.h>

enum { BUFFER = 1 << 16, OWN = 8 << 20, MOST = 8 << 20 };

static int no_memory(void) {
    fputs("no memory\n", stderr);
    return 1;
}

// Reads a file to its end, and answers how long it is, or -1 for want of memory.
static off_t read_all(const char *name, char *buffer, int keeps) {
    int file = open(name, O_RDONLY);
    off_t at = 0;
    for (ssize_t count; (count = pread(file, buffer, BUFFER, at)) > 0; at += count) {
        char *kept = keeps ? malloc(count / 4) : buffer;
        if (!kept)
            return -1;
        memset(kept, 1, count / 4);
    }
    close(file);
    return at;
}

int main(int count, char **words) {
    char *buffer = malloc(BUFFER), *own = malloc(OWN);
    if (count != 4 || !buffer || !own)
        return no_memory();
    memset(own, 1, OWN);
    off_t size = read_all(words[3], buffer, !strcmp(words[1], "keeps"));
    if (!strcmp(words[1], "twice"))
        size = read_all(words[3], buffer, 0);
    if (size < 0 || (!strcmp(words[1], "most") && size > MOST))
        return no_memory();
    int answer = open(words[2], O_RDONLY);
    for (ssize_t part; (part = read(answer, buffer, BUFFER)) > 0;)
        if (write(STDOUT_FILENO, buffer, part) != part)
            return 1;
    return 0;
}
