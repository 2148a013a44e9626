// Refuses calls of the system to a program that it is loaded into by LD_PRELOAD. tests/refusals.py builds and sets it:
//
//   REFUSE       which calls are counted: memory, threads, device, rests, parks, options, which set how a connection is
//                kept, or look, for the stop file
//   REFUSE_AT    the number of the call that is refused, from 1
//   REFUSE_HOW   once: that call fails; on: and so do all behind it; short: it moves half of its bytes;
//                before: the program is killed in its place; after: the program is killed behind it;
//                swap: if it is a flock, an empty file takes the name of the one that is to be locked before it;
//                note: no call is refused, and all of the device are written down
//   REFUSE_SCRIPTS  where it is set, a shell or Python is one of the programs, and not only what runs one
//   REFUSE_TOLD  a file that is made where the call came, with its name; or those that are written down, one a line: its
//                name, the file's, and the flags, the operation, the bytes that moved or the other name
//
// A shell or Python, which runs a script in the program's place, is refused nothing, and the program behind it is. Where
// REFUSE_SCRIPTS is set scripts are the programs whose calls are noted.
//
// Requests for memory are answered with none; a thread by EAGAIN; what a thread rests with by EMFILE; a park by
// EBADF; an option by EINVAL; the calls of the journal's device and a look by EIO.
//
// It also notes what a program does at the connections that it has accepted:
//
//   NOTED        a file that gets a line for each such call that moves or sets something, in their order: its name, the
//                descriptor, and how many bytes it moved, or what it set
//   SLEPT        a file that gets a line for each rest of a thread: the thread, and `nap` with how many microseconds it asked
//                for, or `park` with how many milliseconds; before it `yield` with how often it let others run since its last
//                rest, if it did, and `away` with how often it was away for long then
//   ENDED        a file that gets a line for each park of a thread that has ended, each connection that it has accepted
//                and each write at one, in their order: the thread, and `rest` with how many events ended it, `accept` with
//                the descriptor, or `write` with how many bytes went (-1 for all in a row that moved none)
//
// And where LATE is set, at these connections two of three writes move nothing, as to a client that is slow to read;
// where SMALL is set, the system holds about so many bytes, or twice that, for a client that hasn't taken them.
#define _GNU_SOURCE
#include <errno.h>
#include <limits.h>
#include <pthread.h>
#include <signal.h>
#include <netinet/in.h>
#include <netinet/tcp.h>
#include <stdatomic.h>
#include <stdio.h>
#include <stdlib.h>
#include <string.h>
#include <sys/epoll.h>
#include <sys/eventfd.h>
#include <sys/file.h>
#include <sys/ioctl.h>
#include <sys/socket.h>
#include <sys/stat.h>
#include <sys/syscall.h>
#include <time.h>
#include <unistd.h>

#include "calls.h"

extern void *__libc_malloc(size_t), *__libc_calloc(size_t, size_t), *__libc_realloc(void *, size_t);
extern void *__libc_memalign(size_t, size_t);

enum how { ONCE, ON, SHORT, BEFORE, AFTER, SWAP, NOTE, PASSES };

enum { MOST_FILES = 4096 };

static const char *group, *told, *noted, *slept, *ended, *late, *small;
static long refused_at;
static atomic_char accepted[MOST_FILES];  // Whether a descriptor is that of a connection that was accepted.
static enum how how = PASSES;
static atomic_long calls;

static int is_interpreter(const char *name) { return !strcmp(name, "sh") || !strncmp(name, "python", 6); }

__attribute__((constructor)) static void begin(void) {
    static const char *const names[] = {"once", "on", "short", "before", "after", "swap", "note"};
    const char *at = getenv("REFUSE_AT"), *word = getenv("REFUSE_HOW");
    group = getenv("REFUSE");
    told = getenv("REFUSE_TOLD");
    noted = getenv("NOTED");
    slept = getenv("SLEPT");
    ended = getenv("ENDED");
    late = getenv("LATE");
    small = getenv("SMALL");
    if (!group || !at || !word || !told)
        return;
    if (is_interpreter(program_invocation_short_name) && !getenv("REFUSE_SCRIPTS"))
        return;
    refused_at = atol(at);
    for (int i = 0; i < PASSES; i++)
        if (!strcmp(word, names[i]))
            how = i;
}

static void add(const char *to, const char *text) {
    int file = (int)syscall(SYS_open, to, O_WRONLY | O_CREAT | O_APPEND, 0600);
    if (file >= 0) {
        syscall(SYS_write, file, text, strlen(text));
        syscall(SYS_close, file);
    }
}

static void say(const char *name) { add(told, name); }

// The name of an open file, or of the one that is given.
static const char *named(char out[PATH_MAX], int file, const char *path) {
    char link[32];
    if (path && *path)
        return path;
    snprintf(link, sizeof link, "/proc/self/fd/%d", file);
    ssize_t size = syscall(SYS_readlink, link, out, PATH_MAX - 1);
    out[size < 0 ? 0 : size] = 0;
    return out;
}

// Writes a call down that was made.
static void note(const char *name, int file, const char *path, const char *more) {
    char own[PATH_MAX], line[3 * PATH_MAX];
    if (how != NOTE)
        return;
    snprintf(line, sizeof line, "%s %s %s\n", name, named(own, file, path), more);
    say(line);
}

static void note_number(const char *name, int file, const char *path, long number) {
    char more[32];
    snprintf(more, sizeof more, "%ld", number);
    note(name, file, path, more);
}

// An empty file takes the name of this one, as if another process had made it meanwhile.
static void swap(int file) {
    char own[PATH_MAX];
    const char *path = named(own, file, NULL);
    syscall(SYS_unlink, path);
    syscall(SYS_close, syscall(SYS_open, path, O_WRONLY | O_CREAT | O_EXCL, 0600));
}

// Notes a call at an accepted connection.
static void note_moved(const char *name, int file, long what) {
    if (!noted || file < 0 || file >= MOST_FILES || !atomic_load(&accepted[file]))
        return;
    int before = errno;
    char line[96];
    snprintf(line, sizeof line, "%s %d %ld\n", name, file, what);
    add(noted, line);
    errno = before;
}

// Notes what this thread has done, which it may have been woken for.
static void note_ended(const char *name, long what) {
    int before = errno;
    char line[64];
    if (!ended)
        return;
    snprintf(line, sizeof line, "%ld %s %ld\n", syscall(SYS_gettid), name, what);
    add(ended, line);
    errno = before;
}

// What is done about this call.
static enum how decided(const char *of, const char *name) {
    if (how == PASSES || how == NOTE || strcmp(of, group))
        return PASSES;
    long number = atomic_fetch_add(&calls, 1) + 1;
    if (number == refused_at)
        say(name);
    if (how == ON && number > refused_at)
        return ON;
    if (number != refused_at)
        return PASSES;
    if (how == BEFORE)
        syscall(SYS_kill, syscall(SYS_getpid), SIGKILL);
    return how;
}

// Whether this call fails.
static int fails(enum how what) { return what == ONCE || what == ON; }

static void end(enum how what) {
    if (what == AFTER)
        syscall(SYS_kill, syscall(SYS_getpid), SIGKILL);
}

// Does the call of this name, or what is to be done in its place, and what is noted of it. `whole` and `half` are the words
// of the whole call and of its half.
#define DEVICE(name, whole, half, noted) \
    enum how what = decided("device", name); \
    if (fails(what)) { \
        errno = EIO; \
        return -1; \
    } \
    int saved_errno; \
    __typeof__(real whole) got = what == SHORT ? real half : real whole; \
    saved_errno = errno; \
    noted; \
    end(what); \
    errno = saved_errno; \
    return got

void *malloc(size_t size) { return fails(decided("memory", "malloc")) ? (errno = ENOMEM, NULL) : __libc_malloc(size); }

void *calloc(size_t count, size_t size) {
    return fails(decided("memory", "calloc")) ? (errno = ENOMEM, NULL) : __libc_calloc(count, size);
}

void *realloc(void *old, size_t size) {
    return fails(decided("memory", "realloc")) ? (errno = ENOMEM, NULL) : __libc_realloc(old, size);
}

void *aligned_alloc(size_t alignment, size_t size) {
    return fails(decided("memory", "aligned_alloc")) ? (errno = ENOMEM, NULL) : __libc_memalign(alignment, size);
}

int posix_memalign(void **out, size_t alignment, size_t size) {
    if (fails(decided("memory", "posix_memalign")))
        return ENOMEM;
    *out = __libc_memalign(alignment, size);
    return *out ? 0 : ENOMEM;
}

int pthread_create(pthread_t *thread, const pthread_attr_t *attributes, void *(*body)(void *), void *given) {
    REAL(int, pthread_create, pthread_t *, const pthread_attr_t *, void *(*)(void *), void *);
    return fails(decided("threads", "pthread_create")) ? EAGAIN : real(thread, attributes, body, given);
}

// The flags of an open that are noted.
#define SHOWN (O_ACCMODE | O_CREAT | O_EXCL | O_TRUNC | O_APPEND)

static int opens(const char *name, open_call *real, const char *path, int flags, mode_t mode) {
    DEVICE(name, (path, flags, mode), (path, flags, mode), note_number("open", got, path, flags & SHOWN));
}
OPENS(opens)

int flock(int file, int operation) {
    REAL(int, flock, int, int);
    if (how == SWAP && atomic_load(&calls) + 1 == refused_at && !strcmp(group, "device"))
        swap(file);
    DEVICE("flock", (file, operation), (file, operation), note_number("flock", file, NULL, operation));
}

int statx(int folder, const char *path, int flags, unsigned mask, struct statx *out) {
    REAL(int, statx, int, const char *, int, unsigned, struct statx *);
    const char *end_of_name = path ? strrchr(path, '.') : NULL;
    if (end_of_name && !strcmp(end_of_name, ".stop"))  // The stop file is no part of the journal.
        return fails(decided("look", "statx")) ? (errno = EIO, -1) : real(folder, path, flags, mask, out);
    DEVICE("statx", (folder, path, flags, mask, out), (folder, path, flags, mask, out),
           note("statx", folder, path, flags & AT_EMPTY_PATH ? "file" : "name"));
}

#define WRITES(name) \
    ssize_t name(int file, const void *data, size_t size, off_t at) { \
        REAL(ssize_t, name, int, const void *, size_t, off_t); \
        DEVICE(#name, (file, data, size, at), (file, data, (size + 1) / 2, at), note_number("pwrite", file, NULL, got)); \
    }
WRITES(pwrite)
WRITES(pwrite64)

#define READS(name) \
    ssize_t name(int file, void *data, size_t size, off_t at) { \
        REAL(ssize_t, name, int, void *, size_t, off_t); \
        DEVICE(#name, (file, data, size, at), (file, data, (size + 1) / 2, at), note_number("pread", file, NULL, got)); \
    }
READS(pread)
READS(pread64)

#define SYNCS(name) \
    int name(int file) { \
        REAL(int, name, int); \
        DEVICE(#name, (file), (file), note(#name, file, NULL, "")); \
    }
SYNCS(fsync)
SYNCS(fdatasync)

// That the system is to forget a file's pages.
#define DROPS(name) \
    int name(int file, off_t at, off_t size, int advice) { \
        REAL(int, name, int, off_t, off_t, int); \
        int why = real(file, at, size, advice); \
        if (advice == POSIX_FADV_DONTNEED) \
            note_number("drop", file, NULL, size); \
        return why; \
    }
DROPS(posix_fadvise)
DROPS(posix_fadvise64)

#define CUTS(name) \
    int name(int file, off_t size) { \
        REAL(int, name, int, off_t); \
        DEVICE("ftruncate", (file, size), (file, size), note_number("ftruncate", file, NULL, size)); \
    }
CUTS(ftruncate)
CUTS(ftruncate64)

int rename(const char *from, const char *to) {
    REAL(int, rename, const char *, const char *);
    DEVICE("rename", (from, to), (from, to), note("rename", -1, from, to));
}

int renameat2(int at, const char *from, int to_at, const char *to, unsigned flags) {
    REAL(int, renameat2, int, const char *, int, const char *, unsigned);
    DEVICE("renameat2", (at, from, to_at, to, flags), (at, from, to_at, to, flags), note("rename", -1, from, to));
}

// What a file's rights become.
int fchmod(int file, mode_t mode) {
    REAL(int, fchmod, int, mode_t);
    DEVICE("fchmod", (file, mode), (file, mode), note_number("mode", file, NULL, mode));
}

int chmod(const char *path, mode_t mode) {
    REAL(int, chmod, const char *, mode_t);
    DEVICE("chmod", (path, mode), (path, mode), note_number("mode", -1, path, mode));
}

int accept4(int listener, struct sockaddr *from, socklen_t *size, int flags) {
    REAL(int, accept4, int, struct sockaddr *, socklen_t *, int);
    int file = real(listener, from, size, flags);
    if (file >= 0 && file < MOST_FILES) {
        atomic_store(&accepted[file], 1);
        note_moved("accept", file, flags & SOCK_NONBLOCK ? 1 : 0);
        note_ended("accept", file);
        int held = small ? atoi(small) : 0;
        if (held)
            setsockopt(file, SOL_SOCKET, SO_SNDBUF, &held, sizeof held);
    }
    return file;
}

int setsockopt(int file, int level, int option, const void *value, socklen_t size) {
    REAL(int, setsockopt, int, int, int, const void *, socklen_t);
    static const struct {
        int level, option;
        const char *name;
    } options[] = {{IPPROTO_TCP, TCP_NODELAY, "nodelay"},
                   {IPPROTO_TCP, TCP_KEEPIDLE, "first_asked"},
                   {IPPROTO_TCP, TCP_KEEPINTVL, "asked_again"},
                   {SOL_SOCKET, SO_KEEPALIVE, "is_asked"},
                   {IPPROTO_TCP, TCP_USER_TIMEOUT, "unheard"}};
    for (size_t i = 0; i < sizeof options / sizeof *options; i++)
        if (level == options[i].level && option == options[i].option && size == sizeof(int)) {
            if (fails(decided("options", options[i].name)))
                return errno = EINVAL, -1;
            note_moved(options[i].name, file, *(const int *)value);
        }
    return real(file, level, option, value, size);
}

int ioctl(int file, unsigned long request, ...) {
    REAL(int, ioctl, int, unsigned long, void *);
    va_list more;
    va_start(more, request);
    void *given = va_arg(more, void *);
    va_end(more);
    if (request == FIONBIO)
        note_moved("nonblocking", file, *(const int *)given);
    return real(file, request, given);
}

int shutdown(int file, int how) {
    REAL(int, shutdown, int, int);
    note_moved("shutdown", file, how);
    return real(file, how);
}

int close(int file) {
    REAL(int, close, int);
    note_moved("close", file, 0);
    if (file >= 0 && file < MOST_FILES)
        atomic_store(&accepted[file], 0);
    return real(file);
}

// How often this thread has let others run since its last rest, and was away for longer than A_MOMENT then, in nanoseconds.
#define A_MOMENT 1000000
static _Thread_local long yields, aways;

// Notes how this thread rests, and how often it let others run before.
static void note_rest(const char *how_it_rests, long how_long) {
    char line[64];
    if (!slept)
        return;
    if (yields) {
        snprintf(line, sizeof line, "%ld yield %ld\n", syscall(SYS_gettid), yields);
        add(slept, line);
    }
    if (aways) {
        snprintf(line, sizeof line, "%ld away %ld\n", syscall(SYS_gettid), aways);
        add(slept, line);
    }
    yields = aways = 0;
    snprintf(line, sizeof line, "%ld %s %ld\n", syscall(SYS_gettid), how_it_rests, how_long);
    add(slept, line);
}

int nanosleep(const struct timespec *asked, struct timespec *left) {
    REAL(int, nanosleep, const struct timespec *, struct timespec *);
    note_rest("nap", asked->tv_sec * 1000000 + asked->tv_nsec / 1000);
    return real(asked, left);
}

int epoll_wait(int file, struct epoll_event *events, int most, int longest) {
    REAL(int, epoll_wait, int, struct epoll_event *, int, int);
    note_rest("park", longest);
    int came = fails(decided("parks", "epoll_wait")) ? (errno = EBADF, -1) : real(file, events, most, longest);
    note_ended("rest", came);
    return came;
}

int epoll_create1(int flags) {
    REAL(int, epoll_create1, int);
    return fails(decided("rests", "epoll_create1")) ? (errno = EMFILE, -1) : real(flags);
}

int eventfd(unsigned count, int flags) {
    REAL(int, eventfd, unsigned, int);
    return fails(decided("rests", "eventfd")) ? (errno = EMFILE, -1) : real(count, flags);
}

static long long nanoseconds(void) {
    struct timespec now;
    clock_gettime(CLOCK_MONOTONIC, &now);
    return now.tv_sec * 1000000000LL + now.tv_nsec;
}

int sched_yield(void) {
    REAL(int, sched_yield, void);
    long long begun = nanoseconds();
    int status = real();
    ++yields;
    aways += nanoseconds() - begun > A_MOMENT;
    return status;
}

// Whether a write at this descriptor is one that moves nothing.
static int is_late(int file) {
    static atomic_long writes;
    if (!late || file < 0 || file >= MOST_FILES || !atomic_load(&accepted[file]) || atomic_fetch_add(&writes, 1) % 3 == 2)
        return 0;
    errno = EAGAIN;
    return 1;
}

// Notes a write at a connection, and how many bytes it moved; of those in a row that move none the first.
static ssize_t wrote(int file, ssize_t moved) {
    static _Thread_local int was_full;
    if (file >= 0 && file < MOST_FILES && atomic_load(&accepted[file])) {
        if (moved >= 0 || !was_full)
            note_ended("write", moved);
        was_full = moved < 0;
    }
    return moved;
}

// Those that move nothing, as where nothing is there yet, aren't noted.
#define MOVES(name, what, kind, ...) \
    REAL(ssize_t, name, __VA_ARGS__); \
    ssize_t moved = what; \
    if (moved >= 0) \
        note_moved(kind, file, moved); \
    return moved

ssize_t recv(int file, void *data, size_t size, int flags) {
    MOVES(recv, real(file, data, size, flags), "read", int, void *, size_t, int);
}

ssize_t recvfrom(int file, void *data, size_t size, int flags, struct sockaddr *from, socklen_t *length) {
    MOVES(recvfrom, real(file, data, size, flags, from, length), "read", int, void *, size_t, int, struct sockaddr *, socklen_t *);
}

ssize_t send(int file, const void *data, size_t size, int flags) {
    if (is_late(file))
        return -1;
    MOVES(send, wrote(file, real(file, data, size, flags)), "write", int, const void *, size_t, int);
}

ssize_t sendto(int file, const void *data, size_t size, int flags, const struct sockaddr *to, socklen_t length) {
    if (is_late(file))
        return -1;
    MOVES(sendto, wrote(file, real(file, data, size, flags, to, length)), "write", int, const void *, size_t, int,
          const struct sockaddr *, socklen_t);
}

ssize_t read(int file, void *data, size_t size) { MOVES(read, real(file, data, size), "read", int, void *, size_t); }

ssize_t write(int file, const void *data, size_t size) {
    if (is_late(file))
        return -1;
    MOVES(write, wrote(file, real(file, data, size)), "write", int, const void *, size_t);
}
