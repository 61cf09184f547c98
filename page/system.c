/* The C library under the program in a page. The page is its system: it has the words, the files that are read and
   the streams that are written. There are no threads: where one can't be made, the program does the work itself. */
#include "types.h"

#define OF_PAGE(name) __attribute__((import_module("page"), import_name(#name))) extern
#define FOR_PAGE(name) __attribute__((export_name(#name)))

/* Puts a word at a place with so much room, and returns its length, or -1 if there is no such word. */
OF_PAGE(word) i64 page_word(u64 number, u8 *to, u64 room);
/* Opens the file of a path, and returns its descriptor, or -1 if there is no such file. */
OF_PAGE(open) int page_open(const char *path, u64 length);
/* Puts the next bytes of a file at a place with so much room, and returns how many these are, or -1. */
OF_PAGE(read) i64 page_read(int file, u8 *to, u64 room);
/* Takes bytes for a stream, and returns whether it could. */
OF_PAGE(write) int page_write(int stream, const u8 *from, u64 count);
OF_PAGE(random) void page_random(u8 *to, u64 count);
/* Ends the program with a status, and doesn't return. */
OF_PAGE(exit) void page_exit(int status);

/* The errors of this system, by Linux's numbers. */
enum { NO_FILE = 2, BAD_DESCRIPTOR = 9, NO_THREAD = 11, NO_TERMINAL = 25, NO_SPACE = 28 };
enum { INPUT = 0, OUTPUT = 1, ERRORS = 2 };

static int error;

static int failed(int with) {
    error = with;
    return -1;
}

int rattle_errno(void) { return error; }
void rattle_set_errno(int to) { error = to; }

/* Bytes. These builtins are instructions of their own, and no calls. */

void *memcpy(void *restrict to, const void *restrict from, u64 count) { return __builtin_memcpy(to, from, count); }
void *memmove(void *to, const void *from, u64 count) { return __builtin_memmove(to, from, count); }
void *memset(void *to, int byte, u64 count) { return __builtin_memset(to, byte, count); }

/* Eight bytes at any place. */
typedef u64 __attribute__((aligned(1), may_alias)) eight;

int memcmp(const void *one, const void *other, u64 count) {
    const u8 *a = one, *b = other;
    u64 at = 0;
    while (at + 8 <= count && *(const eight *)(a + at) == *(const eight *)(b + at)) at += 8;
    while (at < count && a[at] == b[at]) at++;
    return at == count ? 0 : a[at] < b[at] ? -1 : 1;
}

int bcmp(const void *one, const void *other, u64 count) { return memcmp(one, other, count); }

u64 strlen(const char *text) {
    u64 length = 0;
    while (text[length]) length++;
    return length;
}

/* Memory. */

void *malloc(u64 count);
void *realloc(void *bytes, u64 count);
void free(void *bytes);

struct tried {
    u64 is_given;
    u8 *bytes;
};

/* What stands for a block that is not given. */
static u8 nothing[16];

static struct tried tried(u8 *bytes) { return (struct tried){bytes != 0, bytes ? bytes : nothing}; }

/* All blocks are aligned to 16, which no alignment exceeds. */
struct tried rattle_alloc(u64 count, u64 alignment) { return tried(malloc(count)); }
struct tried rattle_realloc(u8 *bytes, u64 kept, u64 count, u64 alignment) { return tried(realloc(bytes, count)); }
void rattle_dealloc(u8 *bytes) { free(bytes); }

/* Words, files and streams. */

i64 rattle_arg(u64 number, u8 *to, u64 room) {
    i64 length = page_word(number, to, room);
    return length > (i64)room ? -2 : length;
}

i64 rattle_env(const char *name, u8 *to, u64 room) { return -1; }
i64 rattle_env_at(u64 number, u8 *to, u64 room) { return -1; }

int open(const char *path, int flags, ...) {
    int file = page_open(path, strlen(path));
    return file < 0 ? failed(NO_FILE) : file;
}

/* Only the size of a file with a name is asked for, and no such file is looked at here. */
int statx(int folder, const char *path, int flags, u32 mask, void *to) { return failed(NO_FILE); }

int close(int file) { return 0; }

i64 read(int file, u8 *to, u64 room) {
    i64 count = page_read(file, to, room);
    return count < 0 ? failed(BAD_DESCRIPTOR) : count;
}

i64 write(int stream, const u8 *from, u64 count) {
    if (stream != OUTPUT && stream != ERRORS) return failed(BAD_DESCRIPTOR);
    return page_write(stream, from, count) ? (i64)count : failed(NO_SPACE);
}

i64 __write(int stream, const u8 *from, u64 count) { return write(stream, from, count); }

/* The page shows a person what the program says, so that advice is due as at a terminal. */
int isatty(int stream) {
    if (stream == ERRORS) return 1;
    error = NO_TERMINAL;
    return 0;
}

int __xpg_strerror_r(int number, char *to, u64 room) {
    const char *text = number == NO_FILE ? "No such file or directory" : "Unknown error";
    for (u64 at = 0; at < room && (!at || text[at - 1]); at++) to[at] = text[at];
    return 0;
}

int getentropy(u8 *to, u64 count) {
    page_random(to, count);
    return 0;
}

/* Threads: none can be made. */

int pthread_create(void *thread, const void *attributes, void *(*of)(void *), void *with) { return NO_THREAD; }
int pthread_join(u64 thread, void **answer) { return NO_THREAD; }
int pthread_detach(u64 thread) { return NO_THREAD; }
u64 pthread_self(void) { return 1; }
int pthread_attr_init(void *attributes) { return 0; }
int pthread_attr_destroy(void *attributes) { return 0; }
int pthread_attr_setguardsize(void *attributes, u64 size) { return 0; }
int pthread_attr_setstacksize(void *attributes, u64 size) { return 0; }
int sched_yield(void) { return 0; }

/* The process. */

void _exit(int status) {
    page_exit(status);
    __builtin_trap();
}

void abort(void) { __builtin_trap(); }

u64 __sysv_signal(int number, u64 handler) { return 0; }

/* The program asks whether the processor has what it was compiled for: nothing of that is in WebAssembly's code. */
const u32 *__x86_get_cpuid_feature_leaf(u32 leaf) {
    static const u32 all[] = {-1, -1, -1, -1, -1, -1, -1, -1};
    return all;
}

/* Numbers of 128 bits, where compiled code calls a function for them. Only halves are multiplied and shifted here,
   as the code of anything more would call these functions again. */

typedef unsigned __int128 u128;

union halves {
    u128 whole;
    struct {
        u64 low, high;
    };
};

u128 __multi3(u128 one, u128 other) {
    union halves a = {one}, b = {other}, product;
    u64 most = 0xffffffff;
    u64 low = (a.low & most) * (b.low & most);
    u64 middle = (a.low >> 32) * (b.low & most) + (low >> 32);
    u64 rest = (a.low & most) * (b.low >> 32) + (middle & most);
    product.low = rest << 32 | (low & most);
    product.high = (a.low >> 32) * (b.low >> 32) + (middle >> 32) + (rest >> 32) + a.low * b.high + a.high * b.low;
    return product.whole;
}

u128 __ashlti3(u128 number, int places) {
    union halves a = {number}, shifted = {0};
    if (places >= 64) {
        shifted.high = a.low << (places - 64);
    } else {
        shifted.low = a.low << places;
        shifted.high = a.high << places | (places ? a.low >> (64 - places) : 0);
    }
    return shifted.whole;
}

u128 __lshrti3(u128 number, int places) {
    union halves a = {number}, shifted = {0};
    if (places >= 64) {
        shifted.low = a.high >> (places - 64);
    } else {
        shifted.high = a.high >> places;
        shifted.low = a.low >> places | (places ? a.high << (64 - places) : 0);
    }
    return shifted.whole;
}

/* What the page calls. */

extern int program(void);

FOR_PAGE(run) int run(void) { return program(); }
