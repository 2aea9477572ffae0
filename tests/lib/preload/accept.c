// Fails the first accepts of the program that it is loaded into by LD_PRELOAD, as if the connections were gone already.
// The environment's ACCEPTS says how many.
#define _GNU_SOURCE
#include <dlfcn.h>
#include <errno.h>
#include <stdlib.h>
#include <sys/socket.h>

int accept4(int listener, struct sockaddr *address, socklen_t *length, int flags) {
    static typeof(&accept4) next;
    static long failed;
    const char *number = getenv("ACCEPTS");
    if (number && failed < atol(number)) {
        failed++;
        errno = ECONNABORTED;
        return -1;
    }
    if (!next) next = (typeof(&accept4))dlsym(RTLD_NEXT, "accept4");
    return next(listener, address, length, flags);
}
