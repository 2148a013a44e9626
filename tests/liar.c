// A store of three machines that may lie, for programs that it is loaded into by LD_PRELOAD: each is on one of the
// machines. What they ask of files in one folder goes to that folder, but for what a store of machines has to do. A
// machine that is cut off gets errors. It is fenced: it has lost its locks, and what it has opened stays refused.
//
//   LIAR_FOLDER  the folder
//   LIAR_NAME    the machine's name
//   LIAR_STATE   another folder: `cut-a` is there as long as the machine a is cut off; `epoch` has a byte for each time that
//                one was fenced, and `fenced-a` as many as there were when a was; `moment` is locked by each call, and by
//                who cuts a machine off; `lock-3` is the file that is locked in the place of each one in the folder once
//                there were three; `pids-a` has the processes of a; `memory-a-F` is what a remembers of the file F
//   LIE          the lie, if any: late, what was fenced is done once the machine is joined; stale, a machine reads what it
//                remembers until it drops that; mapped, or then too; early, a lock passes on a second behind a refusal;
//                sync, what is written reaches the folder with a close alone; cut, who is cut off is told of success
#define _GNU_SOURCE
#include <errno.h>
#include <limits.h>
#include <pthread.h>
#include <stdio.h>
#include <stdlib.h>
#include <string.h>
#include <sys/file.h>
#include <sys/stat.h>
#include <sys/syscall.h>
#include <sys/uio.h>
#include <time.h>
#include <unistd.h>

#include "calls.h"

enum { MOST_FILES = 1024, MOST_PIECES = 1 << 14, MOST_IN_A_PIECE = 64, TOO_LATE = 100000 };

// An open file of the folder.
struct file {
    int is_ours, lock;  // The descriptor of what is locked in its place, or 0.
    long epoch;         // How often one was fenced before it was opened.
    char name[NAME_MAX + 1];
};
static struct file files[MOST_FILES];

// What was written, and isn't in the folder yet.
static struct piece {
    int file;
    size_t size;
    off_t at;
    char data[MOST_IN_A_PIECE];
} pieces[MOST_PIECES];
static int many;

static const char *folder, *name, *state, *lie;
static struct timespec refused;  // When a lock was refused first.

static int lies(const char *how) { return lie && !strcmp(lie, how); }

// A file of the state.
static const char *path_of(char out[PATH_MAX], const char *kind, const char *more) {
    snprintf(out, PATH_MAX, "%s/%s%s", state, kind, more);
    return out;
}

static long size_of(const char *kind, const char *more) {
    char path[PATH_MAX];
    struct stat it;
    return stat(path_of(path, kind, more), &it) ? 0 : it.st_size;
}

static int is_cut(void) {
    char path[PATH_MAX];
    return !access(path_of(path, "cut-", name), F_OK);
}

// A call is in front of a cut or behind it: who cuts a machine off waits for those that have begun, and so none is half of each.
static int begun(void) {
    char path[PATH_MAX];
    int moment = syscall(SYS_openat, AT_FDCWD, path_of(path, "moment", ""), O_RDONLY | O_CREAT | O_CLOEXEC, 0600);
    syscall(SYS_flock, moment, LOCK_SH);
    return moment;
}

static void end(const int *moment) {
    int why = errno;
    syscall(SYS_close, *moment);
    errno = why;
}

#define A_CALL __attribute__((cleanup(end))) int moment = begun()

__attribute__((constructor)) static void begin(void) {
    char path[PATH_MAX], line[32];
    folder = getenv("LIAR_FOLDER");
    name = getenv("LIAR_NAME");
    state = getenv("LIAR_STATE");
    lie = getenv("LIE");
    if (!folder || !name || !state) {
        folder = NULL;
        return;
    }
    int all = syscall(SYS_openat, AT_FDCWD, path_of(path, "pids-", name), O_WRONLY | O_CREAT | O_APPEND | O_CLOEXEC, 0600);
    syscall(SYS_write, all, line, snprintf(line, sizeof line, "%d\n", (int)getpid()));
    syscall(SYS_close, all);
}

static struct file *ours(int file) {
    return folder && file >= 0 && file < MOST_FILES && files[file].is_ours ? &files[file] : NULL;
}

// Whether a call at a file is refused: as the machine is cut off, or as it was when the file was open.
static int is_refused(const struct file *it) {
    if (is_cut()) {
        usleep(TOO_LATE);
        errno = EIO;
        return 1;
    }
    errno = EBADF;
    return !lies("late") && it->epoch < size_of("fenced-", name);
}

static int opens(const char *call, open_call *real, const char *path, int flags, mode_t mode) {
    (void)call;
    size_t size = folder ? strlen(folder) : 0;
    if (!folder || strncmp(path, folder, size) || path[size] != '/')
        return real(path, flags, mode);
    A_CALL;
    if (is_cut()) {
        errno = EIO;
        return -1;
    }
    int file = real(path, flags, mode);
    if (file >= 0 && file < MOST_FILES) {
        files[file] = (struct file){.is_ours = 1, .epoch = size_of("epoch", "")};
        snprintf(files[file].name, sizeof files[file].name, "-%s", strrchr(path, '/') + 1);
    }
    return file;
}
OPENS(opens)

// What this machine remembers of a file.
static const char *memory_of(char out[PATH_MAX], const struct file *it) {
    char more[2 * NAME_MAX];
    snprintf(more, sizeof more, "%s%s", name, it->name);
    return path_of(out, "memory-", more);
}

// Remembers a file as it is now, if nothing of it is remembered: the descriptor of what is.
static int remembered(int file, const struct file *it) {
    char path[PATH_MAX], data[4096];
    ssize_t count;
    off_t at = 0;
    int memory = syscall(SYS_openat, AT_FDCWD, memory_of(path, it), O_RDWR | O_CREAT | O_EXCL | O_CLOEXEC, 0600);
    if (memory < 0)
        return syscall(SYS_openat, AT_FDCWD, path, O_RDWR | O_CLOEXEC);
    while ((count = syscall(SYS_pread64, file, data, sizeof data, at)) > 0) {
        syscall(SYS_pwrite64, memory, data, count, at);
        at += count;
    }
    return memory;
}

static int reads_memory(int file) { return (lies("stale") || lies("mapped")) && !(fcntl(file, F_GETFL) & O_DIRECT); }

#define READS(call) \
    ssize_t call(int file, void *data, size_t size, off_t at) { \
        REAL(ssize_t, call, int, void *, size_t, off_t); \
        struct file *it = ours(file); \
        if (!it) \
            return real(file, data, size, at); \
        A_CALL; \
        if (is_refused(it)) \
            return -1; \
        if (!reads_memory(file)) \
            return real(file, data, size, at); \
        int memory = remembered(file, it); \
        ssize_t count = real(memory, data, size, at); \
        syscall(SYS_close, memory); \
        return count; \
    }
READS(pread)
READS(pread64)

#define READS_IN_PIECES(call) \
    ssize_t call(int file, const struct iovec *into, int parts, off_t at, int flags) { \
        REAL(ssize_t, call, int, const struct iovec *, int, off_t, int); \
        return ours(file) ? pread64(file, into->iov_base, into->iov_len, at) : real(file, into, parts, at, flags); \
    }
READS_IN_PIECES(preadv2)
READS_IN_PIECES(preadv64v2)

int posix_fadvise64(int file, off_t at, off_t size, int advice) {
    char path[PATH_MAX];
    struct file *it = ours(file);
    if (it && advice == POSIX_FADV_DONTNEED && lies("stale"))
        unlink(memory_of(path, it));
    return syscall(SYS_fadvise64, file, at, size, advice) ? errno : 0;
}

// Writes to the folder, and to what is remembered of the file.
static ssize_t put(int file, const struct file *it, const void *data, size_t size, off_t at) {
    if (lies("stale") || lies("mapped")) {
        int memory = remembered(file, it);
        syscall(SYS_pwrite64, memory, data, size, at);
        syscall(SYS_close, memory);
    }
    return syscall(SYS_pwrite64, file, data, size, at);
}

static ssize_t writes(int file, const void *data, size_t size, off_t at) {
    struct file *it = ours(file);
    if (!it)
        return syscall(SYS_pwrite64, file, data, size, at);
    A_CALL;
    if (lies("cut") && is_cut())
        return size;
    if (is_refused(it))
        return -1;
    if (!lies("sync") || size > MOST_IN_A_PIECE || many == MOST_PIECES)
        return put(file, it, data, size, at);
    pieces[many] = (struct piece){file, size, at, ""};
    memcpy(pieces[many++].data, data, size);
    return size;
}
ssize_t pwrite(int file, const void *data, size_t size, off_t at) { return writes(file, data, size, at); }
ssize_t pwrite64(int file, const void *data, size_t size, off_t at) { return writes(file, data, size, at); }

#define SYNCS(call) \
    int call(int file) { \
        REAL(int, call, int); \
        struct file *it = ours(file); \
        if (!it) \
            return real(file); \
        A_CALL; \
        if (lies("cut") && is_cut()) \
            return 0; \
        return is_refused(it) ? -1 : real(file); \
    }
SYNCS(fsync)
SYNCS(fdatasync)

// The seconds since a lock was refused first, from now on.
static double since_refusal(void) {
    struct timespec now;
    clock_gettime(CLOCK_MONOTONIC, &now);
    if (!refused.tv_sec)
        refused = now;
    return now.tv_sec - refused.tv_sec + (now.tv_nsec - refused.tv_nsec) / 1e9;
}

// Locks the file of this epoch in the place of any.
int flock(int file, int operation) {
    char path[PATH_MAX], more[32];
    struct file *it = ours(file);
    if (!it)
        return syscall(SYS_flock, file, operation);
    if (is_refused(it))
        return -1;
    snprintf(more, sizeof more, "%ld", size_of("epoch", ""));
    it->lock = syscall(SYS_openat, AT_FDCWD, path_of(path, "lock-", more), O_RDWR | O_CREAT | O_CLOEXEC, 0600);
    if (!syscall(SYS_flock, it->lock, operation))
        return 0;
    int why = errno;
    syscall(SYS_close, it->lock);
    it->lock = 0;
    errno = why;
    return lies("early") && since_refusal() > 1 ? 0 : -1;
}

int close(int file) {
    struct file *it = ours(file);
    if (it) {
        for (int i = 0; i < many; i++)
            if (pieces[i].file == file)
                syscall(SYS_pwrite64, file, pieces[i].data, pieces[i].size, pieces[i].at);
        many = 0;
        if (it->lock)
            syscall(SYS_close, it->lock);
        it->is_ours = 0;
    }
    return syscall(SYS_close, file);
}
