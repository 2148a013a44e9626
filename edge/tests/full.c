// Notes whether a program that it is loaded into by LD_PRELOAD waits for room at a socket that took no more.
//
//   FULL         a file that gets a line for each wait by poll behind such a send: `asked` where poll looks for room at that
//                socket, `blind` where it looks for other things of it alone
#define _GNU_SOURCE
#include <errno.h>
#include <poll.h>
#include <stdatomic.h>
#include <stdlib.h>
#include <string.h>
#include <sys/socket.h>
#include <sys/syscall.h>
#include <unistd.h>

#include "../../tests/calls.h"

enum { MOST_FILES = 1024 };

static atomic_char full[MOST_FILES];  // Whether the last send of a descriptor found no room.

static int is_known(int file) { return file >= 0 && file < MOST_FILES; }

static void say(const char *line) {
    const char *to = getenv("FULL");
    int file = to ? (int)syscall(SYS_openat, AT_FDCWD, to, O_WRONLY | O_CREAT | O_APPEND | O_CLOEXEC, 0600) : -1;
    if (file < 0)
        return;
    syscall(SYS_write, file, line, strlen(line));
    syscall(SYS_close, file);
}

ssize_t send(int file, const void *data, size_t size, int flags) {
    REAL(ssize_t, send, int, const void *, size_t, int);
    ssize_t done = real(file, data, size, flags);
    if (is_known(file))
        atomic_store(&full[file], done < 0 && errno == EAGAIN);
    return done;
}

int close(int file) {
    REAL(int, close, int);
    if (is_known(file))
        atomic_store(&full[file], 0);
    return real(file);
}

// A look that doesn't wait is none of these.
int poll(struct pollfd *all, nfds_t count, int longest) {
    REAL(int, poll, struct pollfd *, nfds_t, int);
    for (nfds_t i = 0; longest && i < count; i++)
        if (is_known(all[i].fd) && atomic_load(&full[all[i].fd]))
            say(all[i].events & POLLOUT ? "asked\n" : "blind\n");
    return real(all, count, longest);
}
