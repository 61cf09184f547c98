// An allocator for tests, which the dynamic linker loads before the C library (LD_PRELOAD). It counts the
// allocations from the start of main's libraries on and refuses the one whose number REFUSED gives; with ONWARD
// those after it too; none if that is 0. It writes an R to the descriptor of the number NOTES when it first
// refuses, or at each allocation if it refuses none.
#include <errno.h>
#include <stdatomic.h>
#include <stdlib.h>
#include <unistd.h>

void *__libc_malloc(size_t size);
void *__libc_calloc(size_t count, size_t size);
void *__libc_realloc(void *block, size_t size);
void *__libc_memalign(size_t alignment, size_t size);

// Until `start` nothing is counted or refused.
static int notes = -1;
static unsigned long refused;
static int onward;
static atomic_ulong asked;

__attribute__((constructor)) static void start(void) {
    refused = strtoul(getenv("REFUSED"), NULL, 10);
    onward = getenv("ONWARD") != NULL;
    notes = atoi(getenv("NOTES"));
}

static int is_refused(void) {
    if (notes < 0) return 0;
    unsigned long number = atomic_fetch_add(&asked, 1) + 1;
    if ((refused == 0 || number == refused) && write(notes, "R", 1) != 1) abort();
    if (refused == 0 || (onward ? number < refused : number != refused)) return 0;
    errno = ENOMEM;
    return 1;
}

void *malloc(size_t size) { return is_refused() ? NULL : __libc_malloc(size); }

void *calloc(size_t count, size_t size) { return is_refused() ? NULL : __libc_calloc(count, size); }

void *realloc(void *block, size_t size) { return is_refused() ? NULL : __libc_realloc(block, size); }

void *memalign(size_t alignment, size_t size) { return is_refused() ? NULL : __libc_memalign(alignment, size); }

void *aligned_alloc(size_t alignment, size_t size) { return memalign(alignment, size); }

int posix_memalign(void **block, size_t alignment, size_t size) {
    void *made = memalign(alignment, size);
    if (made == NULL) return ENOMEM;
    *block = made;
    return 0;
}
