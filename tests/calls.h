// What a library begins with that stands before calls of the system, loaded by LD_PRELOAD: the calls behind it, and the two
// that open a file, which have a mode behind their words where they may make one. _GNU_SOURCE is defined before it.
#pragma once
#include <dlfcn.h>
#include <fcntl.h>
#include <stdarg.h>

// Finds the function that this one stands before.
#define REAL(result, name, ...) \
    static result (*real)(__VA_ARGS__); \
    if (!real) \
        real = (result(*)(__VA_ARGS__))dlsym(RTLD_NEXT, #name)

typedef int open_call(const char *path, int flags, ...);

// Stands before open and open64 by this function of the call's name, the call behind it, path, flags and mode.
#define OPENS(by) OPENS_OF(open, by) OPENS_OF(open64, by)

#define OPENS_OF(name, by) \
    int name(const char *path, int flags, ...) { \
        REAL(int, name, const char *, int, ...); \
        va_list more; \
        va_start(more, flags); \
        mode_t mode = flags & O_CREAT ? va_arg(more, mode_t) : 0; \
        va_end(more); \
        return by(#name, real, path, flags, mode); \
    }
