/* The heap of the module, and the few functions that a C library or a compiler's library would have.
 *
 * Nothing proves this file: web/compare and web/test try it. Blocks are multiples of 16 bytes, aligned to 16, with a
 * head of 16 bytes that holds the size. Free blocks stand in a list in the order of their addresses; neighbours are
 * joined; the first that is large enough is taken. The memory of a module grows and never shrinks.
 */
typedef unsigned long size;
typedef unsigned char byte;
typedef unsigned __int128 wide;

struct block {
    size length; /* with this head */
    struct block *next; /* while it is free */
};

enum { UNIT = 16, PAGE = 65536 };
static const size MOST = 1ul << 40;

extern byte __heap_base;
static struct block *first_free;
static size used_to;

static size rounded(size length) {
    return (length + UNIT - 1) & ~(size)(UNIT - 1);
}

/* A block after all that were ever handed out, or NULL. */
static struct block *fresh(size length) {
    if (used_to == 0) used_to = rounded((size)&__heap_base);
    size end = used_to + length, have = __builtin_wasm_memory_size(0) * PAGE;
    if (end > have && __builtin_wasm_memory_grow(0, (end - have + PAGE - 1) / PAGE) == (size)-1) return 0;
    struct block *block = (struct block *)used_to;
    used_to = end;
    block->length = length;
    return block;
}

/* Takes a free block out of the list; what it has too much stays there. */
static void take(struct block **place, size length) {
    struct block *block = *place;
    if (block->length - length < 2 * UNIT) {
        *place = block->next;
        return;
    }
    struct block *rest = (struct block *)((byte *)block + length);
    rest->length = block->length - length;
    rest->next = block->next;
    block->length = length;
    *place = rest;
}

void *malloc(size wanted) {
    if (wanted > MOST) return 0;
    size length = rounded(wanted + (wanted == 0)) + UNIT;
    for (struct block **place = &first_free; *place; place = &(*place)->next) {
        struct block *block = *place;
        if (block->length < length) continue;
        take(place, length);
        return (byte *)block + UNIT;
    }
    struct block *block = fresh(length);
    return block ? (byte *)block + UNIT : 0;
}

/* Joins a free block with the next one, if that begins where it ends. */
static void join(struct block *block) {
    if ((byte *)block + block->length != (byte *)block->next) return;
    block->length += block->next->length;
    block->next = block->next->next;
}

void free(void *bytes) {
    if (!bytes) return;
    struct block *block = (struct block *)((byte *)bytes - UNIT), *before = 0;
    for (struct block *it = first_free; it && it < block; it = it->next) before = it;
    struct block **place = before ? &before->next : &first_free;
    block->next = *place;
    *place = block;
    join(block);
    if (before) join(before);
}

void *realloc(void *bytes, size wanted) {
    if (!bytes) return malloc(wanted);
    size kept = ((struct block *)((byte *)bytes - UNIT))->length - UNIT;
    if (wanted <= kept) return bytes;
    void *moved = malloc(wanted);
    if (!moved) return 0;
    __builtin_memcpy(moved, bytes, kept);
    free(bytes);
    return moved;
}

/* These become instructions of the module (memory.copy, memory.fill). */
void *memmove(void *to, const void *from, size length) { return __builtin_memmove(to, from, length); }
void *memcpy(void *to, const void *from, size length) { return __builtin_memmove(to, from, length); }
void *memset(void *to, int value, size length) { return __builtin_memset(to, value, length); }

int memcmp(const void *one, const void *other, size length) {
    const byte *x = one, *y = other;
    for (; length; length--, x++, y++)
        if (*x != *y) return *x < *y ? -1 : 1;
    return 0;
}

int bcmp(const void *one, const void *other, size length) { return memcmp(one, other, length); }

/* Products and shifts of 128 bits, which clang calls by these names. */
static wide pair(size high, size low) { return (wide)high << 64 | low; }

static wide product(size x, size y) {
    size x0 = x & 0xffffffff, x1 = x >> 32, y0 = y & 0xffffffff, y1 = y >> 32;
    size low = x0 * y0, one = x1 * y0 + (low >> 32), two = x0 * y1 + (one & 0xffffffff);
    return pair(x1 * y1 + (one >> 32) + (two >> 32), two << 32 | (low & 0xffffffff));
}

wide __multi3(wide x, wide y) {
    size crossed = (size)(x >> 64) * (size)y + (size)x * (size)(y >> 64);
    return product((size)x, (size)y) + pair(crossed, 0);
}

wide __lshrti3(wide value, int count) {
    size high = (size)(value >> 64), low = (size)value, by = count & 63;
    if (count & 64) return high >> by;
    return by ? pair(high >> by, low >> by | high << (64 - by)) : value;
}

wide __ashlti3(wide value, int count) {
    size high = (size)(value >> 64), low = (size)value, by = count & 63;
    if (count & 64) return pair(low << by, 0);
    return by ? pair(high << by | low >> (64 - by), low << by) : value;
}
