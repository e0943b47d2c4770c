/* Notes, in order, what a program does to its files and what it tells, and may fail one sync. It is loaded ahead of the
 * program, and power_trial/journal.py reads the journal:
 *
 *   cc -O2 -shared -fPIC -o cut.so tools/tests/libraries/power_cut.c -ldl
 *   LD_PRELOAD=$PWD/cut.so CUT_JOURNAL=journal crates/batchctl/out/batchctl ..
 *
 * No sync reaches the disk: the reader of the journal says what a power cut leaves.
 *
 * CUT_JOURNAL  A file that gets a record of each call that did something, and of the sync that failed: four numbers (8 bytes
 *              each, the machine's order), which are the kind of the call, the file's number (st_ino), a place or a length, and
 *              the size of the bytes behind them. The kinds are the letters in the functions below.
 * CUT_FAIL_AT  The number of the sync to fail, from 1 on, of files and of folders. Without it none fails.
 * CUT_DISK     A folder. Under the name of a file it has the bytes of the disk, if an earlier sync of the file failed. Then a
 *              read returns the bytes in memory, which the disk never got, until the program drops these: by posix_fadvise, or
 *              by opening the file with O_DIRECT. After that it returns those of the disk. */
#define _GNU_SOURCE
#include <dlfcn.h>
#include <errno.h>
#include <fcntl.h>
#include <stdarg.h>
#include <stdint.h>
#include <stdio.h>
#include <stdlib.h>
#include <string.h>
#include <sys/stat.h>
#include <sys/syscall.h>
#include <sys/uio.h>
#include <unistd.h>

enum { MOST_FILES = 16, MOST_NAME = 4096, PIECE = 65536 };

static int journal = -1;
static uint64_t syncs, fail_at;
static const char *disk;

/* The files that differ on the disk, each opened for writing, with an open file of the disk's bytes. */
static struct differing {
    uint64_t number;
    int bytes, memory;
} differing[MOST_FILES];
static int differing_count;

#define NEXT(type, name, ...) ((type(*)(__VA_ARGS__))dlsym(RTLD_NEXT, name))

static int open_next(const char *path, int flags, mode_t mode) {
    return NEXT(int, "open", const char *, int, ...)(path, flags, mode);
}

__attribute__((constructor)) static void begin(void) {
    const char *path = getenv("CUT_JOURNAL"), *text = getenv("CUT_FAIL_AT");
    fail_at = text ? strtoull(text, NULL, 10) : 0;
    disk = getenv("CUT_DISK");
    if (path && (journal = open_next(path, O_WRONLY | O_CREAT | O_APPEND | O_CLOEXEC, 0600)) < 0)
        abort();
}

static void note(char kind, uint64_t number, uint64_t place, const void *bytes, size_t size) {
    uint64_t head[4] = {(uint64_t)kind, number, place, size};
    struct iovec parts[2] = {{head, sizeof head}, {(void *)bytes, size}};
    if (journal >= 0 && syscall(SYS_writev, journal, parts, 2) != (long)(sizeof head + size))
        abort();
}

static void note_names(char kind, const char *from, const char *to) {
    char names[2 * MOST_NAME];
    int size = snprintf(names, sizeof names, "%s%c%s", from, 0, to);
    if (size < 0 || size >= (int)sizeof names)
        abort();
    note(kind, 0, 0, names, (size_t)size);
}

/* What is open under this number, if it is a file whose kind of file this is. */
static int is_kind(int file, mode_t kind, uint64_t *number) {
    struct stat found;
    if (fstat(file, &found) != 0 || (found.st_mode & S_IFMT) != kind)
        return 0;
    *number = found.st_ino;
    return 1;
}

/* Whether calls of this file are noted: standard streams are none of the program's files. */
static int is_noted(int file, uint64_t *number) { return file > 2 && is_kind(file, S_IFREG, number); }

static struct differing *differing_of(uint64_t number) {
    for (int at = 0; at < differing_count; at++)
        if (differing[at].number == number)
            return &differing[at];
    return NULL;
}

/* Finds the disk's bytes of a file that is opened. */
static void find_differing(const char *path, uint64_t number) {
    char place[MOST_NAME];
    const char *slash = strrchr(path, '/');
    if (!disk || differing_of(number) || differing_count == MOST_FILES)
        return;
    snprintf(place, sizeof place, "%s/%s", disk, slash ? slash + 1 : path);
    int bytes = open_next(place, O_RDWR | O_CLOEXEC, 0);
    if (bytes < 0)
        return;
    int memory = open_next(path, O_WRONLY | O_CLOEXEC, 0);
    if (memory < 0)
        abort();
    differing[differing_count++] = (struct differing){number, bytes, memory};
}

/* Puts the disk's bytes into the file, whose length stays: the length is not dropped from memory. */
static void drop_memory(uint64_t number) {
    struct differing *found = differing_of(number);
    char piece[PIECE];
    struct stat now;
    note('a', number, 0, "", 0);
    if (!found)
        return;
    if (fstat(found->memory, &now) != 0)
        abort();
    for (off_t at = 0; at < now.st_size; at += PIECE) {
        off_t size = now.st_size - at < PIECE ? now.st_size - at : PIECE;
        memset(piece, 0, PIECE);
        if (syscall(SYS_pread64, found->bytes, piece, size, at) < 0 || syscall(SYS_pwrite64, found->memory, piece, size, at) != size)
            abort();
    }
}

/* Notes that a file was cut, and cuts the disk's bytes too. */
static void note_cut(uint64_t number, off_t size) {
    struct differing *found = differing_of(number);
    note('c', number, (uint64_t)size, "", 0);
    if (found && syscall(SYS_ftruncate, found->bytes, size) != 0)
        abort();
}

static int opened(int file, const char *path, int flags, int was_there) {
    uint64_t number;
    if (file < 0 || !is_noted(file, &number))
        return file;
    if (was_there)
        find_differing(path, number);
    else
        note('m', number, 0, path, strlen(path));
    if (was_there && flags & O_TRUNC)
        note_cut(number, 0);
    if (flags & O_DIRECT)
        drop_memory(number);
    return file;
}

static int open_noted(const char *path, int flags, mode_t mode) {
    struct stat found;
    int was_there = !(flags & O_CREAT) || stat(path, &found) == 0;
    return opened(open_next(path, flags & ~O_DIRECT, mode), path, flags, was_there);
}

static mode_t mode_in(int flags, va_list rest) { return flags & (O_CREAT | __O_TMPFILE) ? va_arg(rest, mode_t) : 0; }

int open(const char *path, int flags, ...) {
    va_list rest;
    va_start(rest, flags);
    mode_t mode = mode_in(flags, rest);
    va_end(rest);
    return open_noted(path, flags, mode);
}

int open64(const char *path, int flags, ...) {
    va_list rest;
    va_start(rest, flags);
    mode_t mode = mode_in(flags, rest);
    va_end(rest);
    return open_noted(path, flags, mode);
}

/* Notes bytes that were written at a place, and writes them to the disk's bytes too. */
static void note_write(uint64_t number, off_t place, const void *bytes, ssize_t size) {
    struct differing *found = differing_of(number);
    if (size <= 0)
        return;
    note('w', number, (uint64_t)place, bytes, (size_t)size);
    if (found && syscall(SYS_pwrite64, found->bytes, bytes, size, place) != size)
        abort();
}

static off_t place_of(int file) {
    struct stat found;
    int flags = (int)syscall(SYS_fcntl, file, F_GETFL);
    if (flags >= 0 && flags & O_APPEND && fstat(file, &found) == 0)
        return found.st_size;
    return (off_t)syscall(SYS_lseek, file, 0, SEEK_CUR);
}

ssize_t write(int file, const void *bytes, size_t size) {
    uint64_t number;
    int noted = is_noted(file, &number);
    off_t place = noted ? place_of(file) : 0;
    ssize_t done = NEXT(ssize_t, "write", int, const void *, size_t)(file, bytes, size);
    if (noted)
        note_write(number, place, bytes, done);
    if (file == 1 && done > 0)
        note('t', 0, 0, bytes, (size_t)done);
    return done;
}

ssize_t pwrite(int file, const void *bytes, size_t size, off_t place) {
    uint64_t number;
    ssize_t done = NEXT(ssize_t, "pwrite", int, const void *, size_t, off_t)(file, bytes, size, place);
    if (is_noted(file, &number))
        note_write(number, place, bytes, done);
    return done;
}

ssize_t pwrite64(int file, const void *bytes, size_t size, off_t place) { return pwrite(file, bytes, size, place); }

int ftruncate(int file, off_t size) {
    uint64_t number;
    int failed = NEXT(int, "ftruncate", int, off_t)(file, size);
    if (!failed && is_noted(file, &number))
        note_cut(number, size);
    return failed;
}

int ftruncate64(int file, off_t size) { return ftruncate(file, size); }

/* Notes a sync of a file or of a folder, and fails it if it is the one to fail. */
static int sync_noted(int file) {
    uint64_t number;
    int is_folder = is_kind(file, S_IFDIR, &number), fails = ++syncs == fail_at;
    if (is_folder)
        note(fails ? 'e' : 'd', number, 0, "", 0);
    else if (is_noted(file, &number))
        note(fails ? 'f' : 's', number, 0, "", 0);
    if (fails)
        errno = EIO;
    return fails ? -1 : 0;
}

int fsync(int file) { return sync_noted(file); }

int fdatasync(int file) { return sync_noted(file); }

/* Part of a page is never dropped. So advice counts if it is for all of the file. */
int posix_fadvise(int file, off_t place, off_t size, int advice) {
    uint64_t number;
    struct stat found;
    int is_all = place == 0 && (size == 0 || (fstat(file, &found) == 0 && size >= found.st_size));
    if (advice == POSIX_FADV_DONTNEED && is_all && is_noted(file, &number))
        drop_memory(number);
    return 0;
}

int posix_fadvise64(int file, off_t place, off_t size, int advice) { return posix_fadvise(file, place, size, advice); }

int rename(const char *from, const char *to) {
    int failed = NEXT(int, "rename", const char *, const char *)(from, to);
    if (!failed)
        note_names('r', from, to);
    return failed;
}

int link(const char *from, const char *to) {
    int failed = NEXT(int, "link", const char *, const char *)(from, to);
    if (!failed)
        note_names('l', from, to);
    return failed;
}

int unlink(const char *path) {
    int failed = NEXT(int, "unlink", const char *)(path);
    if (!failed)
        note('u', 0, 0, path, strlen(path));
    return failed;
}
