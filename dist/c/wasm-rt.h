/* What the C of wkt_module.c works on: the module's memory, its loads and stores, and traps. wasm2c writes the code, and
 * make.sh leaves its own forms of these out. wkt_portable.c has the functions that are only declared here. */
#ifndef WASM_RT_H
#define WASM_RT_H
#include <stddef.h>
#include <stdint.h>
#include <string.h>

/* Numbers stand in the module's memory with their lowest byte first, on every processor: where it isn't the processor's way,
 * each load and store turns them. */
#if defined __BYTE_ORDER__ && __BYTE_ORDER__ == __ORDER_BIG_ENDIAN__
#define WKT_BIG_ENDIAN 1
#define ORDERED_8(number) (number)
#define ORDERED_16(number) __builtin_bswap16(number)
#define ORDERED_32(number) __builtin_bswap32(number)
#define ORDERED_64(number) __builtin_bswap64(number)
#else
#define WKT_BIG_ENDIAN 0
#define ORDERED_8(number) (number)
#define ORDERED_16(number) (number)
#define ORDERED_32(number) (number)
#define ORDERED_64(number) (number)
#endif

typedef struct {
    uint8_t *data;
    uint32_t pages, max_pages;
    uint64_t size;
} wasm_rt_memory_t;

void wasm_rt_allocate_memory(wasm_rt_memory_t *memory, uint32_t pages, uint32_t max_pages);
void wasm_rt_free_memory(wasm_rt_memory_t *memory);

enum { OOB = 1, DIV_BY_ZERO, UNREACHABLE_CODE };
__attribute__((noreturn, cold)) void wasm_rt_trap(int why);
#define TRAP(why) (wasm_rt_trap(why), 0)
#define UNREACHABLE TRAP(UNREACHABLE_CODE)

/* A function keeps the memory at hand: no code of the module makes it larger. No function calls itself, so no depth is
 * counted. */
#define FUNC_PROLOGUE \
    uint8_t *const data = instance->w2c_memory.data; \
    const uint64_t size = instance->w2c_memory.size; \
    (void)data, (void)size
#define FUNC_EPILOGUE (void)0

/* What an access is passed of it. An address is the sum of two numbers of 32 bits, so no sum wraps. */
#define MEMORY data, size
#define ACCESS static inline __attribute__((always_inline))
#define WITHIN(address, count) \
    if (__builtin_expect((uint64_t)(address) + (count) > size, 0)) wasm_rt_trap(OOB)
#define LOAD(name, bits, read, given) \
    ACCESS given name(const uint8_t *data, uint64_t size, uint64_t address) { \
        uint##bits##_t number; \
        WITHIN(address, sizeof number); \
        memcpy(&number, data + address, sizeof number); \
        return (given)(read)ORDERED_##bits(number); \
    }
#define STORE(name, bits, taken) \
    ACCESS void name(uint8_t *data, uint64_t size, uint64_t address, taken value) { \
        const uint##bits##_t number = ORDERED_##bits((uint##bits##_t)value); \
        WITHIN(address, sizeof number); \
        memcpy(data + address, &number, sizeof number); \
    }
LOAD(i32_load, 32, uint32_t, uint32_t)
LOAD(i64_load, 64, uint64_t, uint64_t)
LOAD(i32_load8_s, 8, int8_t, uint32_t)
LOAD(i64_load8_s, 8, int8_t, uint64_t)
LOAD(i32_load8_u, 8, uint8_t, uint32_t)
LOAD(i64_load8_u, 8, uint8_t, uint64_t)
LOAD(i32_load16_s, 16, int16_t, uint32_t)
LOAD(i64_load16_s, 16, int16_t, uint64_t)
LOAD(i32_load16_u, 16, uint16_t, uint32_t)
LOAD(i64_load16_u, 16, uint16_t, uint64_t)
LOAD(i64_load32_s, 32, int32_t, uint64_t)
LOAD(i64_load32_u, 32, uint32_t, uint64_t)
STORE(i32_store, 32, uint32_t)
STORE(i64_store, 64, uint64_t)
STORE(i32_store8, 8, uint32_t)
STORE(i64_store8, 8, uint64_t)
STORE(i32_store16, 16, uint32_t)
STORE(i64_store16, 16, uint64_t)
STORE(i64_store32, 32, uint64_t)

ACCESS void memory_fill(uint8_t *data, uint64_t size, uint32_t to, uint32_t byte, uint32_t count) {
    WITHIN(to, count);
    memset(data + to, (int)(byte & 255), count);
}
ACCESS void memory_copy(uint8_t *data, uint64_t size, uint32_t to, uint32_t from, uint32_t count) {
    WITHIN(to, count);
    WITHIN(from, count);
    memmove(data + to, data + from, count);
}
#define LOAD_DATA(memory, at, bytes, count) \
    do { \
        if ((uint64_t)(at) + (count) > (memory).size) wasm_rt_trap(OOB); \
        memcpy((memory).data + (at), bytes, count); \
    } while (0)

#define DIV_U(one, other) ((other) == 0 ? TRAP(DIV_BY_ZERO) : (one) / (other))
#define REM_U(one, other) ((other) == 0 ? TRAP(DIV_BY_ZERO) : (one) % (other))
#define I32_CTZ(number) ((number) ? (uint32_t)__builtin_ctz(number) : 32)
#define I64_CTZ(number) ((number) ? (uint64_t)__builtin_ctzll(number) : 64)
#define I64_CLZ(number) ((number) ? (uint64_t)__builtin_clzll(number) : 64)
/* What else a module may need is missed when it is compiled, and not when a program is linked. */
#pragma GCC diagnostic error "-Wimplicit-function-declaration"
#endif
