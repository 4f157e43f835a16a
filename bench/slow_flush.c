/* A library to preload: each fdatasync and fsync of a program takes so many MICROSECONDS longer, a number that is given to the compiler.
 *
 * Only the thread that called waits, once the call itself has ended, and several threads wait at the same time: it is no device that does
 * one flush after the other. Other reads and writes are as fast as ever. */
#define _GNU_SOURCE
#include <dlfcn.h>
#include <errno.h>
#include <time.h>

static int slow(const char *name, int file) {
    int (*real)(int) = (int (*)(int))dlsym(RTLD_NEXT, name);
    int result = real(file), said = errno;
    struct timespec left = {MICROSECONDS / 1000000, MICROSECONDS % 1000000 * 1000};
    while (nanosleep(&left, &left) != 0) continue;
    errno = said;
    return result;
}

int fdatasync(int file) { return slow("fdatasync", file); }

int fsync(int file) { return slow("fsync", file); }
