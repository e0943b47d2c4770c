/* Counts a program's calls of files, and fails one of them. It is loaded ahead of the program:
 *
 *   cc -O2 -shared -fPIC -o fail.so tools/tests/libraries/fail_a_call.c -ldl
 *   LD_PRELOAD=$PWD/fail.so FAIL_AT=7 FAIL_COUNT=count crates/batchctl/out/batchctl ..
 *
 * A call is one of open, flock, ftruncate, lseek, read, write, fsync, fdatasync or rename, of standard streams too. The
 * call that fails does nothing, and says EIO; the calls behind it are served.
 *
 * FAIL_AT     The number of the call to fail, from 1 on. Without it none fails.
 * FAIL_COUNT  A file that holds two numbers of 8 bytes, in the machine's order, however the program ended: how many calls
 *             there were, and 1 if the one that failed was a sync, else 0. */
#define _GNU_SOURCE
#include <dlfcn.h>
#include <errno.h>
#include <fcntl.h>
#include <stdarg.h>
#include <stdint.h>
#include <stdlib.h>
#include <sys/mman.h>
#include <sys/syscall.h>
#include <unistd.h>

static struct noted {
    uint64_t calls, failed_sync;
} unshared, *noted = &unshared;
static uint64_t fail_at;

/* Puts the numbers into the file, which the program shares from now on. */
static void share_numbers(const char *path) {
    int file = (int)syscall(SYS_open, path, O_RDWR | O_CREAT | O_TRUNC | O_CLOEXEC, 0600);
    if (file < 0 || syscall(SYS_ftruncate, file, sizeof *noted) != 0)
        abort();
    void *shared = mmap(NULL, sizeof *noted, PROT_READ | PROT_WRITE, MAP_SHARED, file, 0);
    if (shared == MAP_FAILED)
        abort();
    noted = shared;
    close(file);
}

__attribute__((constructor)) static void begin(void) {
    const char *text = getenv("FAIL_AT"), *path = getenv("FAIL_COUNT");
    fail_at = text ? strtoull(text, NULL, 10) : 0;
    if (path)
        share_numbers(path);
}

/* Counts a call, and says whether it is the one to fail. */
static int fails(void) {
    if (++noted->calls != fail_at)
        return 0;
    errno = EIO;
    return 1;
}

static int fails_sync(void) {
    if (!fails())
        return 0;
    noted->failed_sync = 1;
    return 1;
}

#define NEXT(type, name, ...) ((type(*)(__VA_ARGS__))dlsym(RTLD_NEXT, name))

int open(const char *path, int flags, ...) {
    va_list rest;
    va_start(rest, flags);
    mode_t mode = flags & O_CREAT ? va_arg(rest, mode_t) : 0;
    va_end(rest);
    return fails() ? -1 : NEXT(int, "open", const char *, int, ...)(path, flags, mode);
}

int flock(int file, int operation) { return fails() ? -1 : NEXT(int, "flock", int, int)(file, operation); }

int ftruncate(int file, off_t size) { return fails() ? -1 : NEXT(int, "ftruncate", int, off_t)(file, size); }

off_t lseek(int file, off_t place, int from) {
    return fails() ? -1 : NEXT(off_t, "lseek", int, off_t, int)(file, place, from);
}

ssize_t read(int file, void *bytes, size_t size) {
    return fails() ? -1 : NEXT(ssize_t, "read", int, void *, size_t)(file, bytes, size);
}

ssize_t write(int file, const void *bytes, size_t size) {
    return fails() ? -1 : NEXT(ssize_t, "write", int, const void *, size_t)(file, bytes, size);
}

int fsync(int file) { return fails_sync() ? -1 : NEXT(int, "fsync", int)(file); }

int fdatasync(int file) { return fails_sync() ? -1 : NEXT(int, "fdatasync", int)(file); }

int rename(const char *from, const char *to) {
    return fails() ? -1 : NEXT(int, "rename", const char *, const char *)(from, to);
}
