/* The heap of board.c, which the toolchain's std takes memory from, over malloc. The toolchain has the same, compiled
 * for x86-64 alone. */
typedef __SIZE_TYPE__ size;

void *malloc(size bytes);
void *realloc(void *block, size bytes);
void free(void *block);

/* The answer to std: 1 and the block; or, where memory was refused, 0 and the address of a byte of no block. */
struct answer {
    size given;
    void *block;
};

static unsigned char nothing;

/* The largest alignment that malloc gives. A larger one is refused. */
enum { ALIGNMENT = 16 };

static struct answer answer(void *block) { return block ? (struct answer){1, block} : (struct answer){0, &nothing}; }

/* Each block has at least a byte. */
struct answer rattle_alloc(size bytes, size alignment) {
    return answer(alignment <= ALIGNMENT ? malloc(bytes ? bytes : 1) : 0);
}

/* Makes a block larger or smaller. Its first `kept` bytes stay as they were. If memory was refused, all do. */
struct answer rattle_realloc(void *block, size kept, size bytes, size alignment) {
    return answer(alignment <= ALIGNMENT ? realloc(block, bytes ? bytes : 1) : 0);
}

void rattle_dealloc(void *block) { free(block); }
