/* The heap of board.wasm: the toolchain's std takes memory from it, and a host reserves memory in it.
 *
 * Blocks follow one another from the heap's base to its end, each with a header before its memory. No two free blocks
 * are neighbours. The free blocks of about one length are a list, a bin; a block is cut from one in the first bin that
 * has one that is long enough. */
typedef __SIZE_TYPE__ size;

struct block {
    size tag;    /* the length of the header and the memory, a multiple of 16, and IN_USE for a block in use */
    size before; /* the length of the block before this one, or 0 */
    /* In the memory of a free block: the next one of its bin, and what leads to this one. */
    struct block *next, **link;
};

/* The answer to std: 1 and the memory; or, if it was refused, 0 and the address of a byte of no block. */
struct answer {
    size given;
    void *memory;
};

enum { PAGE = 65536, ALIGNMENT = 16, IN_USE = 1, LEAST = sizeof(struct block), HEADER = LEAST / 2, FINE = 4 };
_Static_assert(HEADER == ALIGNMENT, "memory follows its header, so both must be aligned");
static const size LARGEST = (size)1 << 48;

extern unsigned char __heap_base;
static unsigned char nothing;
static struct block *bins[FINE * 64];
static struct block *end; /* a block in use, without memory, after all others; null before the first one */

static size aligned(size at) { return (at + ALIGNMENT - 1) / ALIGNMENT * ALIGNMENT; }

static size length_of(const struct block *it) { return it->tag / ALIGNMENT * ALIGNMENT; }

static int is_free(const struct block *it) { return !(it->tag & IN_USE); }

static struct block *after(const struct block *it) { return (struct block *)((size)it + length_of(it)); }

/* Of the first block it is that block itself. */
static struct block *before(const struct block *it) { return (struct block *)((size)it - it->before); }

static void set(struct block *it, size length, size use) {
    it->tag = length + use;
    after(it)->before = length;
}

/* The bin of a length: four for each power of 2. */
static struct block **bin_of(size length) {
    size log = 63 - (size)__builtin_clzll(length);
    return &bins[FINE * log + (length >> (log - 2)) % FINE];
}

static void put(struct block *it) {
    struct block **bin = bin_of(length_of(it));
    it->next = *bin;
    it->link = bin;
    if (*bin) (*bin)->link = &it->next;
    *bin = it;
}

/* Takes a free block out of its bin, and returns its length. */
static size removed(struct block *it) {
    *it->link = it->next;
    if (it->next) it->next->link = it->link;
    return length_of(it);
}

/* Makes a block in use free, and joins it with its neighbours that are free. */
static void make_free(struct block *it) {
    size length = length_of(it);
    it->tag = length;
    if (is_free(after(it))) length += removed(after(it));
    if (it->before && is_free(before(it))) {
        it = before(it);
        length += removed(it);
    }
    set(it, length, 0);
    put(it);
}

/* Shortens a block in use, and makes the rest free if that is long enough for a block. */
static void cut(struct block *it, size length) {
    size rest = length_of(it) - length;
    if (rest < LEAST) return;
    set(it, length, IN_USE);
    set(after(it), rest, IN_USE);
    make_free(after(it));
}

/* Lengthens a block in use by the free one after it. */
static void lengthen(struct block *it) {
    if (is_free(after(it))) set(it, length_of(it) + removed(after(it)), IN_USE);
}

/* Adds bytes, and the rest of their page, as a free block at the end: whether there is memory. It asks for the size
 * again after a growth: for a refused growth, memory.grow returns a different number in a lowered module. */
static int grow(size bytes) {
    size start = end ? (size)end : aligned((size)&__heap_base);
    size wanted = start + bytes + HEADER, held = __builtin_wasm_memory_size(0) * PAGE;
    if (wanted > held) __builtin_wasm_memory_grow(0, (wanted - held + PAGE - 1) / PAGE);
    held = __builtin_wasm_memory_size(0) * PAGE;
    if (wanted > held) return 0;
    struct block *it = (struct block *)start;
    if (!end) it->before = 0;
    set(it, held - HEADER - start, IN_USE);
    end = after(it);
    end->tag = IN_USE;
    make_free(it);
    return 1;
}

/* The first block that is long enough, in the first bin that has one; or null. */
static struct block *fit(size length) {
    for (struct block **bin = bin_of(length); bin < bins + FINE * 64; bin++) {
        for (struct block *it = *bin; it; it = it->next)
            if (length_of(it) >= length) return it;
    }
    return 0;
}

/* Takes a block, or null if memory was refused. */
static struct block *take(size length) {
    struct block *it = fit(length);
    size last = end && is_free(before(end)) ? end->before : 0;
    if (!it && grow(length - last)) it = fit(length);
    if (!it) return 0;
    set(it, removed(it), IN_USE);
    cut(it, length);
    return it;
}

/* The length of a block with memory of these bytes, and 0 for more bytes or a larger alignment than are given. */
static size length_for(size bytes, size alignment) {
    return bytes > LARGEST || alignment > ALIGNMENT ? 0 : HEADER + aligned(bytes ? bytes : 1);
}

static struct answer answer(struct block *it) {
    return it ? (struct answer){1, &it->next} : (struct answer){0, &nothing};
}

/* The block of memory. Memory that is not of a block in use ends in a trap. */
static struct block *block_of(void *memory) {
    struct block *it = (struct block *)((size)memory - HEADER);
    if (is_free(it)) __builtin_trap();
    return it;
}

struct answer rattle_alloc(size bytes, size alignment) {
    size length = length_for(bytes, alignment);
    return answer(length ? take(length) : 0);
}

void rattle_dealloc(void *memory) { make_free(block_of(memory)); }

/* Makes memory larger or smaller, where it is if it fits there. Its first `kept` bytes stay as they were. If memory was
 * refused, it stays as it was. */
struct answer rattle_realloc(void *memory, size kept, size bytes, size alignment) {
    struct block *it = block_of(memory);
    size length = length_for(bytes, alignment), old = length_of(it);
    if (!length) return answer(0);
    lengthen(it);
    if (length_of(it) < length && after(it) == end && grow(length - length_of(it))) lengthen(it);
    if (length_of(it) >= length) {
        cut(it, length);
        return answer(it);
    }
    cut(it, old);
    struct answer moved = rattle_alloc(bytes, alignment);
    if (!moved.given) return moved;
    __builtin_memcpy(moved.memory, memory, kept);
    rattle_dealloc(memory);
    return moved;
}

/* Reserves bytes, aligned to 16, whose contents are arbitrary: returns their address, or 0 if memory was refused. */
size board_reserve(size bytes) {
    struct answer given = rattle_alloc(bytes, ALIGNMENT);
    return given.given ? (size)given.memory : 0;
}

/* Gives reserved memory back. */
void board_release(size address) {
    if (address) rattle_dealloc((void *)address);
}
