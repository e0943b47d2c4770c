/* Counts a program's requests for memory, and refuses one of them. It is loaded ahead of the program:
 *
 *   cc -O2 -shared -fPIC -o refuse.so tools/tests/libraries/refuse_a_request.c
 *   LD_PRELOAD=$PWD/refuse.so REFUSE_AT=7 REFUSE_COUNT=count crates/batchctl/out/batchctl ..
 *
 * A request is a call of malloc, calloc, realloc, reallocarray, or of one that asks for aligned memory. Requests that the
 * C library makes before this library begins are served, and not counted.
 *
 * REFUSE_AT     The number of the request to refuse, from 1 on. Without it none is refused.
 * REFUSE_COUNT  A file that holds how many requests there were (8 bytes, the machine's order), however the program ended.
 * REFUSE_MARK   A number of bytes that nothing else asks for. A request of so many bytes is always served and never
 *               counted: the first one begins the count, the second one ends it, and so on. Without it all are counted. */
#include <errno.h>
#include <fcntl.h>
#include <stdatomic.h>
#include <stdint.h>
#include <stdlib.h>
#include <sys/mman.h>
#include <unistd.h>

/* The C library's own, which stand behind those that we replace. */
void *__libc_malloc(size_t size);
void *__libc_calloc(size_t count, size_t size);
void *__libc_realloc(void *old, size_t size);
void *__libc_memalign(size_t step, size_t size);

static _Atomic uint64_t unshared, *requests = &unshared;
static _Atomic int counting;
static uint64_t refuse_at, mark;

static uint64_t number_in(const char *name) {
    const char *text = getenv(name);
    return text ? strtoull(text, NULL, 10) : 0;
}

/* Puts the count into the file, which the program shares from now on. */
static void share_count(const char *path) {
    int file = open(path, O_RDWR | O_CREAT | O_TRUNC | O_CLOEXEC, 0600);
    if (file < 0 || ftruncate(file, sizeof *requests) != 0)
        abort();
    void *shared = mmap(NULL, sizeof *requests, PROT_READ | PROT_WRITE, MAP_SHARED, file, 0);
    if (shared == MAP_FAILED)
        abort();
    requests = shared;
    close(file);
}

__attribute__((constructor)) static void begin(void) {
    const char *path = getenv("REFUSE_COUNT");
    refuse_at = number_in("REFUSE_AT");
    mark = number_in("REFUSE_MARK");
    if (path)
        share_count(path);
    counting = mark == 0;
}

/* Counts a request, and says whether it is the one to refuse. */
static int is_refused(size_t size) {
    if (mark != 0 && size == mark) {
        counting ^= 1;
        return 0;
    }
    return counting && atomic_fetch_add(requests, 1) + 1 == refuse_at;
}

static void *refusal(void) {
    errno = ENOMEM;
    return NULL;
}

static void *aligned(size_t step, size_t size) {
    return is_refused(size) ? refusal() : __libc_memalign(step, size);
}

void *malloc(size_t size) { return is_refused(size) ? refusal() : __libc_malloc(size); }

void *calloc(size_t count, size_t size) { return is_refused(count * size) ? refusal() : __libc_calloc(count, size); }

void *realloc(void *old, size_t size) { return is_refused(size) ? refusal() : __libc_realloc(old, size); }

void *reallocarray(void *old, size_t count, size_t size) {
    size_t all;
    return __builtin_mul_overflow(count, size, &all) ? refusal() : realloc(old, all);
}

void *memalign(size_t step, size_t size) { return aligned(step, size); }

void *aligned_alloc(size_t step, size_t size) { return aligned(step, size); }

void *valloc(size_t size) { return aligned((size_t)sysconf(_SC_PAGESIZE), size); }

int posix_memalign(void **place, size_t step, size_t size) {
    void *got = aligned(step, size);
    if (got == NULL)
        return ENOMEM;
    *place = got;
    return 0;
}
