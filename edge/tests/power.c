// Plays a power cut to an edge that it is loaded into by LD_PRELOAD. What the processes of members write to the files
// of their folders goes to them as always, and another folder holds what a disk has of it that keeps nothing before it
// is asked to: bytes of a file behind its fsync or fdatasync, names behind an fsync of their folder. power.py builds it.
//
//   POWER_FOLDER  the folder of all members, which has a folder of each one's files
//   POWER_DISK    the other folder: its `entries` has the folders of members that the disk has, its `names-C1` what the
//                 disk has of the files of C1, its `held-9` the bytes of the file with the number 9, and its
//                 `processes` a line for each process of the edge
//   POWER_AT      the number of the call at which power is cut, from 1, of those of one process that write, sync or
//                 send: all processes of the edge are killed in its place. Nothing: they never are
//   POWER_ALONE   where this is set that process alone is killed in the place of that call, and the power stays on
//   POWER_ARMED   a file; where this is set, only calls are counted that are made while the file is there
//   POWER_SOME    a number, that of a chance by which some of what wasn't synced reaches the disk all the same
//   POWER_TOLD    a file that gets a line for each call: `write` and `sync` with the file's name; `send` and `recv` with
//                 the type of the first message, its ClOrdID, and how many writes haven't been synced; `late` where
//                 another process is cutting the power
//   POWER_BOOT    what the program reads as the words of the system's run (boot_id)
#define _GNU_SOURCE
#include <dirent.h>
#include <errno.h>
#include <limits.h>
#include <pthread.h>
#include <signal.h>
#include <stdio.h>
#include <stdlib.h>
#include <string.h>
#include <sys/mman.h>
#include <sys/socket.h>
#include <sys/stat.h>
#include <sys/syscall.h>
#include <unistd.h>

#include "../../tests/calls.h"

enum { MOST_FILES = 1024, MOST_PIECES = 1 << 14 };

static const char *folder, *disk, *told, *boot, *armed;
static long cut_at, calls;
static int has_chance, is_alone;
static unsigned chance;
static pthread_mutex_t lock = PTHREAD_MUTEX_INITIALIZER;
static char names[MOST_FILES][NAME_MAX + 1];  // Of the files below the folder, as C1/C1.db, by their descriptors.
static char is_folder[MOST_FILES];

// What was written since the last sync of its file.
struct piece {
    ino_t file;
    int name;  // The descriptor that it was written by, or -1 where that was closed.
    off_t at, size;
};
static struct piece pieces[MOST_PIECES];
static int many;
static ino_t ours[MOST_FILES];  // Files of which all that isn't synced was written by this process.
static int many_ours;

__attribute__((constructor)) static void begin(void) {
    char own[PATH_MAX], *name;
    ssize_t size = readlink("/proc/self/exe", own, sizeof own - 1);
    own[size < 0 ? 0 : size] = 0;
    name = strrchr(own, '/');
    if (!name || (!strstr(name, "edge")))  // Not the programs that it starts, nor a shell in front of it.
        return;
    folder = getenv("POWER_FOLDER");
    disk = getenv("POWER_DISK");
    told = getenv("POWER_TOLD");
    boot = getenv("POWER_BOOT");
    armed = getenv("POWER_ARMED");
    cut_at = getenv("POWER_AT") ? atol(getenv("POWER_AT")) : 0;
    is_alone = getenv("POWER_ALONE") != NULL;
    has_chance = getenv("POWER_SOME") != NULL;
    chance = has_chance ? (unsigned)atoi(getenv("POWER_SOME")) : 0;
    if (!disk)
        return;
    char path[PATH_MAX], line[32];
    snprintf(path, sizeof path, "%s/processes", disk);
    int all = syscall(SYS_openat, AT_FDCWD, path, O_WRONLY | O_CREAT | O_APPEND | O_CLOEXEC, 0600);
    int length = snprintf(line, sizeof line, "%d\n", (int)getpid());
    syscall(SYS_write, all, line, length);
    syscall(SYS_close, all);
}

static void say(const char *what, const char *more) {
    char line[512];
    if (!told)
        return;
    int size = snprintf(line, sizeof line, "%s %s\n", what, more);
    int file = syscall(SYS_openat, AT_FDCWD, told, O_WRONLY | O_CREAT | O_APPEND | O_CLOEXEC, 0600);
    syscall(SYS_write, file, line, size);
    syscall(SYS_close, file);
}

// Ends this process with a line that power.py looks for: what a full disk takes from the played one would else be taken
// for the edge's doing.
static void fail(const char *why) {
    dprintf(STDERR_FILENO, "power.c: %s: %s\n", why, strerror(errno));
    abort();
}

// The file that holds what the disk has of this one, by its number on the real disk.
static int open_held(ino_t file) {
    char path[PATH_MAX];
    snprintf(path, sizeof path, "%s/held-%lu", disk, (unsigned long)file);
    return syscall(SYS_openat, AT_FDCWD, path, O_RDWR | O_CREAT | O_CLOEXEC, 0600);
}

// Puts these bytes of a real file where the disk has them.
static void keep(int from, int into, off_t at, off_t size) {
    char data[4096];
    while (size > 0) {
        ssize_t count = syscall(SYS_pread64, from, data, size < (off_t)sizeof data ? size : (off_t)sizeof data, at);
        if (count <= 0)
            return;
        if (syscall(SYS_pwrite64, into, data, count, at) != count)
            fail("what was synced can't be kept");
        at += count;
        size -= count;
    }
}

// Whether a file is among ours, from now on or no longer.
static int set_ours(ino_t file, int is_so) {
    int i = 0;
    while (i < many_ours && ours[i] != file)
        i++;
    const int was_so = i < many_ours;
    if (is_so && !was_so && many_ours < MOST_FILES)
        ours[many_ours++] = file;
    if (!is_so && was_so)
        ours[i] = ours[--many_ours];
    return was_so;
}

static void sync_file(int file) {
    struct stat it;
    if (syscall(SYS_fstat, file, &it))
        return;
    int held = open_held(it.st_ino), left = 0;
    if (!set_ours(it.st_ino, 1))  // What a process that is gone has left in the system's memory is synced with it.
        keep(file, held, 0, it.st_size);
    for (int i = 0; i < many; i++) {
        if (pieces[i].file == it.st_ino)
            keep(file, held, pieces[i].at, pieces[i].size);
        else
            pieces[left++] = pieces[i];
    }
    many = left;
    syscall(SYS_ftruncate, held, it.st_size);
    syscall(SYS_close, held);
}

// Puts one entry of a real folder where the disk has its entries, in one step.
static void put_entry(const char *entries, const struct dirent *one) {
    char from[2 * PATH_MAX], into[2 * PATH_MAX], new[2 * PATH_MAX];
    struct stat held, there;
    snprintf(into, sizeof into, "%s/%s", entries, one->d_name);
    if (one->d_type == DT_DIR) {
        mkdir(into, 0700);
        return;
    }
    if (one->d_type != DT_REG || !strcmp(entries + strlen(disk), "/entries"))
        return;
    syscall(SYS_close, open_held(one->d_ino));
    snprintf(from, sizeof from, "%s/held-%lu", disk, (unsigned long)one->d_ino);
    if (!stat(from, &held) && !stat(into, &there) && held.st_ino == there.st_ino)
        return;
    snprintf(new, sizeof new, "%s/new-%lu", disk, (unsigned long)one->d_ino);
    syscall(SYS_link, from, new);
    syscall(SYS_rename, new, into);
}

// The entries of a folder as they are now are those that the disk has: of the folder of all, or of a member's.
static void sync_names(const char *name) {
    char entries[PATH_MAX], real[PATH_MAX], path[2 * PATH_MAX];
    struct dirent *one;
    const int is_all = !strcmp(name, ".");
    snprintf(entries, sizeof entries, is_all ? "%s/entries" : "%s/names-%s", disk, name);
    snprintf(real, sizeof real, "%s/%s", folder, name);
    mkdir(entries, 0700);
    DIR *all = opendir(real);
    while (all && (one = readdir(all)))
        if (one->d_name[0] != '.')
            put_entry(entries, one);
    if (all)
        closedir(all);
    all = opendir(entries);
    while (all && (one = readdir(all))) {
        snprintf(path, sizeof path, "%s/%s", real, one->d_name);
        if (!access(path, F_OK) || one->d_name[0] == '.')
            continue;
        snprintf(path, sizeof path, "%s/%s", entries, one->d_name);
        syscall(SYS_unlink, path);
    }
    if (all)
        closedir(all);
}

// Whether this process is the one that cuts the power. Two that come to that at once would each kill the other before
// the one that keeps them, which would start both again while the power is on.
static int is_first(void) {
    char path[PATH_MAX];
    snprintf(path, sizeof path, "%s/cut", disk);
    int file = syscall(SYS_openat, AT_FDCWD, path, O_WRONLY | O_CREAT | O_EXCL | O_CLOEXEC, 0600);
    if (file < 0 && errno != EEXIST)
        fail("the power can't be cut");
    syscall(SYS_close, file);
    return file >= 0;
}

// Ends all processes of the edge as a power cut does. By chance some of what wasn't synced has come to the disk before.
static void cut(void) {
    if (is_alone)
        syscall(SYS_kill, getpid(), SIGKILL);
    if (!is_first()) {
        say("late", "");
        for (;;)
            pause();
    }
    for (int i = 0; has_chance && i < many; i++)
        if (rand_r(&chance) & 1) {
            int held = open_held(pieces[i].file), from = pieces[i].name;
            keep(from, held, pieces[i].at, pieces[i].size);
            syscall(SYS_close, held);
        }
    char path[PATH_MAX], all[1 << 14], *at = all;
    snprintf(path, sizeof path, "%s/processes", disk);
    int file = syscall(SYS_openat, AT_FDCWD, path, O_RDONLY | O_CLOEXEC);
    ssize_t length = syscall(SYS_read, file, all, sizeof all - 1);
    all[length < 0 ? 0 : length] = 0;
    long first = strtol(at, &at, 10);  // The one that keeps the others, which ends behind them.
    for (long it; (it = strtol(at, &at, 10));)
        if (it != getpid())
            syscall(SYS_kill, it, SIGKILL);
    syscall(SYS_kill, first, SIGKILL);
    syscall(SYS_kill, getpid(), SIGKILL);
}

static void count(void) {
    if (armed && access(armed, F_OK))
        return;
    if (++calls == cut_at)
        cut();
}

// The last part of a path.
static const char *last_of(const char *path) {
    const char *slash = strrchr(path, '/');
    return slash ? slash + 1 : path;
}

static int is_ours(int file) { return folder && file >= 0 && file < MOST_FILES && names[file][0]; }

static void wrote(int file, off_t at, off_t size) {
    struct stat it;
    if (size <= 0 || syscall(SYS_fstat, file, &it))
        return;
    if (many == MOST_PIECES)
        fail("there are too many pieces that aren't synced");
    pieces[many++] = (struct piece){it.st_ino, file, at, size};
}

// Notes which file of the folder a descriptor is, and forgets what the disk had of another file of its number.
static void opened(int file, const char *path, int is_new) {
    if (!folder || file < 0 || file >= MOST_FILES)
        return;
    names[file][0] = is_folder[file] = 0;
    size_t size = strlen(folder);
    if (strncmp(path, folder, size))
        return;
    struct stat it;
    if ((path[size] && path[size] != '/') || syscall(SYS_fstat, file, &it))
        return;
    snprintf(names[file], sizeof names[file], "%s", path[size] && path[size + 1] ? path + size + 1 : ".");
    is_folder[file] = S_ISDIR(it.st_mode);
    set_ours(it.st_ino, is_new);
    if (is_new && !is_folder[file]) {
        char held[PATH_MAX];
        snprintf(held, sizeof held, "%s/held-%lu", disk, (unsigned long)it.st_ino);
        syscall(SYS_unlink, held);
    }
}

static int opens(const char *name, open_call *real, const char *path, int flags, mode_t mode) {
    (void)name;
    if (boot && !strcmp(path, "/proc/sys/kernel/random/boot_id")) {
        int file = memfd_create("boot", 0);
        dprintf(file, "%s\n", boot);
        lseek(file, 0, SEEK_SET);
        return file;
    }
    pthread_mutex_lock(&lock);
    int is_new = flags & O_CREAT && access(path, F_OK);
    int file = real(path, flags, mode), saved = errno;
    opened(file, path, is_new);
    pthread_mutex_unlock(&lock);
    errno = saved;
    return file;
}
OPENS(opens)

int close(int file) {
    REAL(int, close, int);
    if (is_ours(file)) {
        pthread_mutex_lock(&lock);
        names[file][0] = 0;
        for (int i = 0; i < many; i++)
            if (pieces[i].name == file)
                pieces[i].name = -1;
        pthread_mutex_unlock(&lock);
    }
    return real(file);
}

#define WRITES(name) \
    ssize_t name(int file, const void *data, size_t size, off_t at) { \
        REAL(ssize_t, name, int, const void *, size_t, off_t); \
        if (!is_ours(file)) \
            return real(file, data, size, at); \
        pthread_mutex_lock(&lock); \
        count(); \
        say("write", last_of(names[file])); \
        ssize_t done = real(file, data, size, at); \
        wrote(file, at, done); \
        pthread_mutex_unlock(&lock); \
        return done; \
    }
WRITES(pwrite)
WRITES(pwrite64)

ssize_t write(int file, const void *data, size_t size) {
    REAL(ssize_t, write, int, const void *, size_t);
    if (!is_ours(file))
        return real(file, data, size);
    pthread_mutex_lock(&lock);
    count();
    say("write", last_of(names[file]));
    off_t at = lseek(file, 0, SEEK_CUR);
    ssize_t done = real(file, data, size);
    wrote(file, at, done);
    pthread_mutex_unlock(&lock);
    return done;
}

#define SYNCS(name) \
    int name(int file) { \
        REAL(int, name, int); \
        if (!is_ours(file)) \
            return real(file); \
        pthread_mutex_lock(&lock); \
        count(); \
        say("sync", last_of(names[file])); \
        if (is_folder[file]) \
            sync_names(names[file]); \
        else \
            sync_file(file); \
        pthread_mutex_unlock(&lock); \
        return 0; \
    }
SYNCS(fsync)
SYNCS(fdatasync)

// The first message of these bytes, in the words of a line.
static void say_message(const char *what, const char *data, ssize_t size) {
    char text[64] = "", line[160];
    const char *type = size > 0 ? memmem(data, size, "\00135=", 4) : NULL;
    const char *name = type ? memmem(type, data + size - type, "\00111=", 4) : NULL;
    if (!type)
        return;
    for (size_t i = 0; name && i < sizeof text - 1 && name + 4 + i < data + size && name[4 + i] != 1; i++)
        text[i] = name[4 + i];
    snprintf(line, sizeof line, "%.1s %s %d", type + 4, text, many);
    say(what, line);
}

ssize_t send(int file, const void *data, size_t size, int flags) {
    REAL(ssize_t, send, int, const void *, size_t, int);
    if (!folder)
        return real(file, data, size, flags);
    pthread_mutex_lock(&lock);
    count();
    say_message("send", data, size);
    pthread_mutex_unlock(&lock);
    return real(file, data, size, flags);
}

ssize_t recv(int file, void *data, size_t size, int flags) {
    REAL(ssize_t, recv, int, void *, size_t, int);
    ssize_t done = real(file, data, size, flags);
    if (folder && done > 0) {
        pthread_mutex_lock(&lock);
        say_message("recv", data, done);
        pthread_mutex_unlock(&lock);
    }
    return done;
}
