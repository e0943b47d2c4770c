/* Counts the threads that a program makes. It is loaded ahead of the program:
 *
 *   cc -O2 -shared -fPIC -o count.so tools/tests/libraries/count_threads.c -ldl
 *   LD_PRELOAD=$PWD/count.so THREAD_COUNT=count crates/batchctl/out/batchctl run --workers 3 ..
 *
 * THREAD_COUNT  A file that gets a byte for each thread. */
#define _GNU_SOURCE
#include <dlfcn.h>
#include <fcntl.h>
#include <pthread.h>
#include <stdlib.h>
#include <unistd.h>

typedef int create(pthread_t *, const pthread_attr_t *, void *(*)(void *), void *);

int pthread_create(pthread_t *thread, const pthread_attr_t *settings, void *(*run)(void *), void *value) {
    create *next = (create *)dlsym(RTLD_NEXT, "pthread_create");
    const char *path = getenv("THREAD_COUNT");
    int file = path ? open(path, O_WRONLY | O_CREAT | O_APPEND | O_CLOEXEC, 0600) : -1;
    if (file < 0 || write(file, "t", 1) != 1)
        abort();
    close(file);
    return next(thread, settings, run, value);
}
