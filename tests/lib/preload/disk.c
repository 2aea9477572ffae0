// Fails calls of the program that it is loaded into by LD_PRELOAD: calls that write to a file, cut it or sync it.
// A call that fails reports EIO. A write that fails has written one half of its bytes. The environment says which fail:
//   FAIL=N      the call of number N, counted from 1
//   FOREVER=1   also every later call
// After each call it writes to the file COUNT how many calls there were.
#define _GNU_SOURCE
#include <dlfcn.h>
#include <errno.h>
#include <stdio.h>
#include <stdlib.h>
#include <sys/stat.h>
#include <sys/types.h>
#include <unistd.h>

static long calls, failing = -1;
static int is_forever;

static void write_count(void) {
    const char *name = getenv("COUNT");
    FILE *file = name ? fopen(name, "w") : NULL;
    if (file) {
        fprintf(file, "%ld\n", calls);
        fclose(file);
    }
}

// Returns 1 if this call on the file fails. Sockets, pipes and the standard streams aren't on a disk.
static int fails(int file) {
    struct stat it;
    if (failing < 0) {
        const char *number = getenv("FAIL");
        failing = number ? atol(number) : 0;
        is_forever = getenv("FOREVER") != NULL;
    }
    if (file <= STDERR_FILENO || fstat(file, &it) || !S_ISREG(it.st_mode)) return 0;
    calls++;
    write_count();
    if (!failing || (is_forever ? calls < failing : calls != failing)) return 0;
    errno = EIO;
    return 1;
}

#define NEXT(name) static typeof(&name) next; if (!next) next = (typeof(&name))dlsym(RTLD_NEXT, #name)

ssize_t write(int file, const void *bytes, size_t count) {
    NEXT(write);
    if (!fails(file)) return next(file, bytes, count);
    if (count > 1) next(file, bytes, count / 2);
    errno = EIO;
    return -1;
}

ssize_t pwrite64(int file, const void *bytes, size_t count, off64_t at) {
    NEXT(pwrite64);
    if (!fails(file)) return next(file, bytes, count, at);
    if (count > 1) next(file, bytes, count / 2, at);
    errno = EIO;
    return -1;
}

ssize_t pwrite(int file, const void *bytes, size_t count, off_t at) { return pwrite64(file, bytes, count, at); }

int fsync(int file) {
    NEXT(fsync);
    return fails(file) ? -1 : next(file);
}

int fdatasync(int file) {
    NEXT(fdatasync);
    return fails(file) ? -1 : next(file);
}

int ftruncate64(int file, off64_t size) {
    NEXT(ftruncate64);
    return fails(file) ? -1 : next(file, size);
}

int ftruncate(int file, off_t size) { return ftruncate64(file, size); }
