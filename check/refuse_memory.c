// Preloaded by `check/memory`: counts a program's allocations, and refuses those whose numbers are asked for.
#include <errno.h>
#include <fcntl.h>
#include <stdatomic.h>
#include <stdlib.h>
#include <sys/mman.h>
#include <unistd.h>

void *__libc_malloc(size_t), *__libc_calloc(size_t, size_t), *__libc_realloc(void *, size_t);

// The file that REFUSE_MEMORY names. It is shared, so that a count outlives a crash.
static struct {
    atomic_long calls, refused;
    long first, last;
} *counts;

// Before this, as while the program is loaded, nothing is counted.
__attribute__((constructor)) static void open_counts(void) {
    int file = open(getenv("REFUSE_MEMORY"), O_RDWR);
    counts = mmap(NULL, sizeof *counts, PROT_READ | PROT_WRITE, MAP_SHARED, file, 0);
    if (counts == MAP_FAILED) _exit(125);
    close(file);
}

static int is_refused(void) {
    if (!counts) return 0;
    long call = atomic_fetch_add(&counts->calls, 1) + 1;
    if (call < counts->first || call > counts->last) return 0;
    atomic_fetch_add(&counts->refused, 1);
    errno = ENOMEM;
    return 1;
}

void *malloc(size_t size) { return is_refused() ? NULL : __libc_malloc(size); }
void *calloc(size_t count, size_t size) { return is_refused() ? NULL : __libc_calloc(count, size); }
void *realloc(void *old, size_t size) { return is_refused() ? NULL : __libc_realloc(old, size); }
