// Holds a venue's writes of one byte, each of which makes a block of the journal count, for dev/failover-drill. It
// is loaded into venued by LD_PRELOAD:
//
//   HOLD         the file as long as which is there such a write waits
//   HELD         a file that is made where one waits
#define _GNU_SOURCE
#include <dlfcn.h>
#include <fcntl.h>
#include <stdlib.h>
#include <unistd.h>

enum { A_LOOK = 1000 };  // Microseconds between two looks.

static void hold(void)
{
    const char *file = getenv("HOLD"), *told = getenv("HELD");
    if (!file || !told || access(file, F_OK))
        return;
    close(open(told, O_WRONLY | O_CREAT, 0600));
    while (!access(file, F_OK))
        usleep(A_LOOK);
}

#define WRITES(name)                                                        \
    ssize_t name(int file, const void *data, size_t size, off_t at)         \
    {                                                                       \
        ssize_t (*next)(int, const void *, size_t, off_t) = dlsym(RTLD_NEXT, #name); \
        if (size == 1)                                                      \
            hold();                                                         \
        return next(file, data, size, at);                                  \
    }

WRITES(pwrite)
WRITES(pwrite64)
