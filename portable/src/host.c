/* What the functions below need of their host. Each address in them is one of the host itself, as a number of 64 bits:
 * they read and write the memory that the caller lends, that which malloc returns, and a stack that each call takes on
 * that of its thread. They keep nothing from one call to the next. */
#include <setjmp.h>
#include <stdint.h>
#include <stdlib.h>
#include <string.h>

#if defined(__BYTE_ORDER__) && defined(__ORDER_LITTLE_ENDIAN__) && __BYTE_ORDER__ != __ORDER_LITTLE_ENDIAN__
#error "board.c needs a little-endian processor, as those of x86, ARM and RISC-V are"
#endif

typedef uint8_t u8;
typedef uint32_t u32;
typedef uint64_t u64;
typedef int8_t s8;
typedef int32_t s32;
typedef int64_t s64;

/* A call of board.h: the end of its free stack, and where it goes on if it traps. */
struct call {
    u64 stack;
    jmp_buf trapped;
};

enum { STACK_ALIGNMENT = 16 };

#define ADDRESS(pointer) ((u64)(uintptr_t)(pointer))

/* After a trap a call returns a constant, so it doesn't matter which of its arguments are lost. */
#if defined(__GNUC__) && !defined(__clang__)
#pragma GCC diagnostic ignored "-Wclobbered"
#endif

/* Begins a call whose deepest chain of functions takes these bytes of stack. If it traps, it returns `otherwise`. */
#define BEGIN(bytes, otherwise)                                                       \
    u64 stack[(bytes) / sizeof(u64) + STACK_ALIGNMENT / sizeof(u64)];                 \
    struct call call;                                                                 \
    call.stack = (ADDRESS(stack) + sizeof stack) / STACK_ALIGNMENT * STACK_ALIGNMENT; \
    if (setjmp(call.trapped)) return otherwise

/* Ends a call that has come to what is proved to be out of reach. */
static void trap(struct call *call) { longjmp(call->trapped, 1); }

#define UNREACHABLE trap(call)
#define DIV_U(x, y) ((y) ? (x) / (y) : (trap(call), (x)))
#define REM_U(x, y) ((y) ? (x) % (y) : (trap(call), (x)))
#define I32_CTZ(x) ((x) ? lowest_bit(x) : 32)
#define I64_CTZ(x) ((x) ? lowest_bit(x) : 64)
#define I32_POPCNT(x) ones_of(x)

#if defined(__GNUC__)
static inline u32 lowest_bit(u64 x) { return (u32)__builtin_ctzll(x); }
#else
static inline u32 lowest_bit(u64 x) {
    u32 at = 0;
    while (!(x >> at & 1)) at++;
    return at;
}
#endif

/* How many bits of x are 1: sums of 2, 4 and 8 bits, then of all. */
static inline u32 ones_of(u32 x) {
    x -= x >> 1 & 0x55555555;
    x = (x & 0x33333333) + (x >> 2 & 0x33333333);
    return ((x + (x >> 4)) & 0x0f0f0f0f) * 0x01010101 >> 24;
}

/* An address need not be aligned, so a number is copied as bytes, which compilers turn into one instruction. */
#define LOAD(name, stored, loaded)                                            \
    static inline loaded host_##name(u64 at, u64 offset) {                    \
        stored value;                                                         \
        memcpy(&value, (const void *)(uintptr_t)(at + offset), sizeof value); \
        return (loaded)value;                                                 \
    }
#define STORE(name, stored, given)                                    \
    static inline void host_##name(u64 at, given value, u64 offset) { \
        stored kept = (stored)value;                                  \
        memcpy((void *)(uintptr_t)(at + offset), &kept, sizeof kept); \
    }
LOAD(i32_load, uint32_t, u32)
LOAD(i32_load8_u, uint8_t, u32)
LOAD(i32_load8_s, int8_t, u32)
LOAD(i32_load16_u, uint16_t, u32)
LOAD(i64_load, uint64_t, u64)
LOAD(i64_load8_u, uint8_t, u64)
LOAD(i64_load16_u, uint16_t, u64)
LOAD(i64_load32_u, uint32_t, u64)
STORE(i32_store, uint32_t, u32)
STORE(i32_store8, uint8_t, u32)
STORE(i32_store16, uint16_t, u32)
STORE(i64_store, uint64_t, u64)
STORE(i64_store8, uint8_t, u64)
STORE(i64_store32, uint32_t, u64)

static inline void host_memory_copy(u64 to, u64 from, u64 bytes) {
    memmove((void *)(uintptr_t)to, (const void *)(uintptr_t)from, (size_t)bytes);
}
static inline void host_memory_fill(u64 to, u32 byte, u64 bytes) {
    memset((void *)(uintptr_t)to, (int)byte, (size_t)bytes);
}
static inline u64 host_malloc(u64 bytes) { return bytes == (size_t)bytes ? ADDRESS(malloc((size_t)bytes)) : 0; }
static inline u64 host_realloc(u64 at, u64 bytes) {
    return bytes == (size_t)bytes ? ADDRESS(realloc((void *)(uintptr_t)at, (size_t)bytes)) : 0;
}
static inline void host_free(u64 at) { free((void *)(uintptr_t)at); }

/* A constant of 64 bits that is the address of a byte of the constants. */
#if UINTPTR_MAX < UINT64_MAX
#define POINTER(name)          \
    const unsigned char *name; \
    u32 high_of_##name;
#define POINTS_TO(byte) (const unsigned char *)&constants + (byte), 0,
#else
#define POINTER(name) const unsigned char *name;
#define POINTS_TO(byte) (const unsigned char *)&constants + (byte),
#endif
