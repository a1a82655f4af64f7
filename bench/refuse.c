/* Refuses one allocation of the program before which it is loaded: that with the number in REFUSE, from 1. A refused one leaves the file that REFUSED names. */
#include <errno.h>
#include <fcntl.h>
#include <stdatomic.h>
#include <stdlib.h>
#include <unistd.h>

extern void *__libc_malloc(size_t);
extern void *__libc_calloc(size_t, size_t);
extern void *__libc_realloc(void *, size_t);
extern void *__libc_memalign(size_t, size_t);

static atomic_long made;
static long refused = -1;

__attribute__((constructor)) static void begin(void) {
    const char *number = getenv("REFUSE");
    atomic_store(&made, 0);
    refused = number ? atol(number) : 0;
}

static int refuses(void) {
    if (refused < 0 || atomic_fetch_add(&made, 1) + 1 != refused) return 0;
    const char *name = getenv("REFUSED");
    if (name) close(open(name, O_CREAT | O_WRONLY, 0600));
    errno = ENOMEM;
    return 1;
}

void *malloc(size_t size) { return refuses() ? NULL : __libc_malloc(size); }
void *calloc(size_t many, size_t size) { return refuses() ? NULL : __libc_calloc(many, size); }
void *realloc(void *old, size_t size) { return refuses() ? NULL : __libc_realloc(old, size); }
void *aligned_alloc(size_t alignment, size_t size) { return refuses() ? NULL : __libc_memalign(alignment, size); }
int posix_memalign(void **into, size_t alignment, size_t size) {
    void *found = aligned_alloc(alignment, size);
    if (!found) return ENOMEM;
    *into = found;
    return 0;
}
