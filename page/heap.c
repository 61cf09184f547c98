/* The heap. Blocks lie side by side, each after its head. Free blocks are in lists by their size, and free
   neighbours become one block. The memory grows as it is needed, and where it can't, no block is given. */
#include "types.h"

struct block {
    struct block *before; /* the block that ends where this one begins, if there is one */
    u64 size;             /* the bytes after the head, a multiple of 16, and a bit that says that they are free */
    /* These two are among the bytes of the block, and have a meaning while it is free. */
    struct block *next, *previous;
};

enum { HEAD = 16, IS_FREE = 1, LEAST = 16, PAGE = 65536, LISTS = 256 };
#define MOST (1ul << 40)

extern u8 __heap_base;
void *memcpy(void *restrict to, const void *restrict from, u64 count);

static struct block *free_blocks[LISTS];
static u64 has_blocks[LISTS / 64]; /* a bit for each list that is not empty */
static struct block *last;         /* the block after which the memory is unused */
static u64 top, end;               /* where the unused memory begins and ends */

static u64 size_of(const struct block *block) { return block->size & ~(u64)IS_FREE; }
static u8 *bytes_of(struct block *block) { return (u8 *)block + HEAD; }
static struct block *of_bytes(u8 *bytes) { return (struct block *)(bytes - HEAD); }
static struct block *after(struct block *block) { return (struct block *)(bytes_of(block) + size_of(block)); }

/* The size of a block for so many bytes. */
static u64 rounded(u64 count) { return count <= LEAST ? LEAST : (count + 15) & ~15ul; }

/* The place of the leading bit. */
static u32 log_of(u64 size) { return 63 - (u32)__builtin_clzl(size); }

/* The list for a size: one for each multiple of 16 below 128, then four for each doubling. */
static u32 list_of(u64 size) {
    if (size < 128) return (u32)(size / 16);
    u32 log = log_of(size);
    return 8 + (log - 7) * 4 + (u32)(size >> (log - 2) & 3);
}

static void put(struct block *block) {
    u32 list = list_of(size_of(block));
    block->size |= IS_FREE;
    block->previous = 0;
    block->next = free_blocks[list];
    if (block->next) block->next->previous = block;
    free_blocks[list] = block;
    has_blocks[list / 64] |= 1ul << list % 64;
}

static void take(struct block *block) {
    u32 list = list_of(size_of(block));
    block->size &= ~(u64)IS_FREE;
    if (block->next) block->next->previous = block->previous;
    if (block->previous) {
        block->previous->next = block->next;
    } else if (!(free_blocks[list] = block->next)) {
        has_blocks[list / 64] &= ~(1ul << list % 64);
    }
}

/* A free block of at least this size, out of the first list all of whose blocks are large enough. */
static struct block *found(u64 size) {
    u32 list = list_of(size < 128 ? size : size + (1ul << (log_of(size) - 2)) - 1);
    u64 lists = has_blocks[list / 64] & ~0ul << list % 64;
    for (u32 word = list / 64;; lists = has_blocks[word]) {
        if (lists) return free_blocks[word * 64 + (u32)__builtin_ctzl(lists)];
        if (++word == LISTS / 64) return 0;
    }
}

/* Sets how large a block is, and tells the block after it. */
static void resize(struct block *block, u64 size) {
    block->size = size;
    if (block == last) {
        top = (u64)after(block);
    } else {
        after(block)->before = block;
    }
}

/* Makes one block of a block and the free one after it. */
static void join(struct block *block, struct block *next) {
    take(next);
    if (next == last) last = block;
    resize(block, size_of(block) + HEAD + size_of(next));
}

static void release(struct block *block) {
    if (block != last && after(block)->size & IS_FREE) join(block, after(block));
    struct block *before = block->before;
    if (before && before->size & IS_FREE) {
        take(before);
        if (block == last) last = before;
        resize(before, size_of(before) + HEAD + size_of(block));
        block = before;
    }
    put(block);
}

/* Frees what a block has beyond a size, if that is enough for a block. */
static void cut(struct block *block, u64 size) {
    u64 rest = size_of(block) - size;
    if (rest < HEAD + LEAST) return;
    struct block *next = (struct block *)(bytes_of(block) + size);
    next->before = block;
    block->size = size;
    if (block == last) last = next;
    resize(next, rest - HEAD);
    release(next);
}

/* Whether the memory reaches so far. It grows by an eighth at least, if it can, so that it grows seldom. */
static int reaches(u64 wanted) {
    if (!end) {
        top = ((u64)&__heap_base + 15) & ~15ul;
        end = __builtin_wasm_memory_size(0) * PAGE;
    }
    if (wanted <= end) return 1;
    u64 pages = (wanted - end + PAGE - 1) / PAGE, more = end / PAGE / 8;
    if (more < pages || __builtin_wasm_memory_grow(0, more) == ~0ul) {
        more = pages;
        if (__builtin_wasm_memory_grow(0, more) == ~0ul) return 0;
    }
    end += more * PAGE;
    return 1;
}

/* Whether the last block has at least this size, if need be out of unused memory. */
static int stretches(u64 size) {
    if (size_of(last) >= size) return 1;
    if (!reaches((u64)bytes_of(last) + size)) return 0;
    resize(last, size);
    return 1;
}

/* A new block out of unused memory. */
static struct block *added(u64 size) {
    if (last && last->size & IS_FREE) {
        struct block *block = last;
        take(block);
        if (stretches(size)) return block;
        put(block);
        return 0;
    }
    if (!reaches(0) || !reaches(top + HEAD + size)) return 0;
    struct block *block = (struct block *)top;
    block->before = last;
    last = block;
    resize(block, size);
    return block;
}

void *malloc(u64 count) {
    if (count > MOST) return 0;
    u64 size = rounded(count);
    struct block *block = found(size);
    if (block) {
        take(block);
        cut(block, size);
    } else {
        block = added(size);
    }
    return block ? bytes_of(block) : 0;
}

void free(void *bytes) {
    if (bytes) release(of_bytes(bytes));
}

void *realloc(void *bytes, u64 count) {
    if (!bytes) return malloc(count);
    if (count > MOST) return 0;
    struct block *block = of_bytes(bytes);
    u64 size = rounded(count);
    if (size > size_of(block) && block != last) {
        struct block *next = after(block);
        int helps = next == last || size_of(block) + HEAD + size_of(next) >= size;
        if (next->size & IS_FREE && helps) join(block, next);
    }
    if (size <= size_of(block) || (block == last && stretches(size))) {
        cut(block, size);
        return bytes;
    }
    u8 *moved = malloc(count);
    if (!moved) return 0;
    memcpy(moved, bytes, size_of(block));
    free(bytes);
    return moved;
}
