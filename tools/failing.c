// Reads and writes that end otherwise, for tests, which the dynamic linker loads before the C library (LD_PRELOAD). Of
// the calls whose name CALL gives, the one of the number NTH ends as HOW says: "fail", "interrupt", "short" for one byte
// or "none" for no byte. It then writes a C to the descriptor of the number NOTES.
#include <errno.h>
#include <stdatomic.h>
#include <stdlib.h>
#include <string.h>
#include <sys/syscall.h>
#include <unistd.h>

static atomic_ulong calls;

// How many of these bytes a call may take, or -1 if it fails.
static ssize_t most(const char *name, size_t size) {
    if (strcmp(getenv("CALL"), name) != 0) return size;
    if (atomic_fetch_add(&calls, 1) + 1 != strtoul(getenv("NTH"), NULL, 10)) return size;
    if (syscall(SYS_write, atoi(getenv("NOTES")), "C", 1) != 1) abort();
    const char *how = getenv("HOW");
    if (strcmp(how, "short") == 0) return size > 0;
    if (strcmp(how, "none") == 0) return 0;
    errno = strcmp(how, "interrupt") == 0 ? EINTR : EIO;
    return -1;
}

ssize_t read(int from, void *bytes, size_t size) {
    ssize_t count = most("read", size);
    return count < 0 ? -1 : syscall(SYS_read, from, bytes, count);
}

ssize_t write(int to, const void *bytes, size_t size) {
    ssize_t count = most("write", size);
    return count < 0 ? -1 : syscall(SYS_write, to, bytes, count);
}
