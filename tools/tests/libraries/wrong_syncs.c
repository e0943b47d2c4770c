/* Makes a wrong program of a right one, for the tests of the tools that fail its calls and cut its power. It is loaded ahead of
 * the program and of the library of such a tool:
 *
 *   cc -O2 -shared -fPIC -o wrong.so tools/tests/libraries/wrong_syncs.c -ldl
 *   LD_PRELOAD="$PWD/wrong.so $PWD/cut.so" WRONG_SYNCS=late CUT_JOURNAL=journal crates/batchctl/out/batchctl ..
 *
 * WRONG_SYNCS  never: no sync is made. late: syncs are made after the next bytes were told. swallowed: a sync that fails is
 *              taken for one that does not. no_folder: no folder is synced. no_first: the first sync is left out.
 *              no_first_folder: the first sync of a folder is left out. */
#define _GNU_SOURCE
#include <dlfcn.h>
#include <stdlib.h>
#include <string.h>
#include <sys/stat.h>
#include <sys/types.h>
#include <unistd.h>

enum { MOST_LATE = 64 };

static int late[MOST_LATE], late_count, sync_count, folder_sync_count;

#define NEXT(type, name, ...) ((type(*)(__VA_ARGS__))dlsym(RTLD_NEXT, name))

static int is_wrong(const char *way) {
    const char *chosen = getenv("WRONG_SYNCS");
    return chosen && strcmp(chosen, way) == 0;
}

static int is_folder(int file) {
    struct stat found;
    return fstat(file, &found) == 0 && S_ISDIR(found.st_mode);
}

/* Keeps a file open until it is synced, since the program may close it. */
static int put_off(int file) {
    if (late_count == MOST_LATE)
        abort();
    late[late_count++] = dup(file);
    return 0;
}

static int sync_wrongly(int file, const char *name) {
    sync_count++;
    if (is_folder(file) && ++folder_sync_count == 1 && is_wrong("no_first_folder"))
        return 0;
    if (is_wrong("never") || (is_wrong("no_folder") && is_folder(file)) || (is_wrong("no_first") && sync_count == 1))
        return 0;
    if (is_wrong("late"))
        return put_off(file);
    int failed = NEXT(int, name, int)(file);
    return is_wrong("swallowed") ? 0 : failed;
}

int fsync(int file) { return sync_wrongly(file, "fsync"); }

int fdatasync(int file) { return sync_wrongly(file, "fdatasync"); }

ssize_t write(int file, const void *bytes, size_t size) {
    ssize_t done = NEXT(ssize_t, "write", int, const void *, size_t)(file, bytes, size);
    for (int at = 0; file == 1 && at < late_count; at++) {
        NEXT(int, "fsync", int)(late[at]);
        close(late[at]);
    }
    if (file == 1)
        late_count = 0;
    return done;
}
