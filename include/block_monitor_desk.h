/*
 * The block monitor in the desk form, for C99 and C++: for lessons that are tried on desks of 64 bits.
 *
 * It does what the plain form does (block_monitor.h), call by call. Its heap has segments of 16 bytes, and the header before a heap block takes 16:
 * heap start, heap size and heap bases are multiples of 16, and the heap has 32 bytes at least. The stack area is as it is there.
 *
 * Link with target/staticlib/libdesk_c.a (./build-c.sh makes it); a program may link all libraries. docs/C-INTERFACE.md has an example for each call.
 */
#ifndef BLOCK_MONITOR_DESK_H
#define BLOCK_MONITOR_DESK_H

#include "block_monitor_common.h"

#ifdef __cplusplus
extern "C" {
#endif

/* Sizes, in bytes. Start and size of the heap are multiples of BLOCK_MONITOR_DESK_SEGMENT, those of the stack area multiples of 8. */
#define BLOCK_MONITOR_DESK_SMALLEST_HEAP 32
#define BLOCK_MONITOR_DESK_SEGMENT 16 /* heap bases are multiples of it */
#define BLOCK_MONITOR_DESK_HEADER 16  /* bytes before each heap block that no other block may hold */

/*
 * The calls themselves.
 *
 * Map, shadows, addresses and fields are given as in the plain form. The bytes of the heap shadow are not: a heap shadow that one form has written to is
 * nothing that the other can read.
 */

/* All shadows become zero: no block is left. */
uint32_t block_monitor_desk_clear(const uint32_t map[4], uint8_t *heap, size_t heap_length, uint8_t *primary, size_t primary_length,
                                  uint8_t *secondary, size_t secondary_length, uint32_t fields[4]);

/* A block begins, heap or stack by its base; a literal in the stack area alone: any base in the heap is outside. how is a block_monitor_beginning. */
uint32_t block_monitor_desk_begin(const uint32_t map[4], uint8_t *heap, size_t heap_length, uint8_t *primary, size_t primary_length,
                                  uint8_t *secondary, size_t secondary_length, uint32_t base, uint32_t length, uint8_t how, uint32_t fields[4]);

/* The heap block with this base ends. Addresses in the stack area are refused, and with 0 it does nothing, as in the plain form. */
uint32_t block_monitor_desk_free(const uint32_t map[4], uint8_t *heap, size_t heap_length, const uint8_t *primary, size_t primary_length,
                                 const uint8_t *secondary, size_t secondary_length, uint32_t base, uint32_t fields[4]);

/* The stack block with this base ends, a literal too. Addresses outside the stack area are refused. */
uint32_t block_monitor_desk_remove(const uint32_t map[4], const uint8_t *heap, size_t heap_length, uint8_t *primary, size_t primary_length,
                                   uint8_t *secondary, size_t secondary_length, uint32_t base, uint32_t fields[4]);

/* n bytes of one block, which is no literal, count as written from now on. */
uint32_t block_monitor_desk_written(const uint32_t map[4], uint8_t *heap, size_t heap_length, uint8_t *primary, size_t primary_length,
                                    uint8_t *secondary, size_t secondary_length, uint32_t address, uint32_t n, uint32_t fields[4]);

/* The block that holds an address. Fields: base, length, offset of the address, 1 if this byte is written, else 0. */
uint32_t block_monitor_desk_ask(const uint32_t map[4], const uint8_t *heap, size_t heap_length, const uint8_t *primary, size_t primary_length,
                                const uint8_t *secondary, size_t secondary_length, uint32_t address, uint32_t fields[4]);

/* Field: 1 if one block holds from and all n bytes at the address and, where write is true, is no literal, else 0. */
uint32_t block_monitor_desk_access(const uint32_t map[4], const uint8_t *heap, size_t heap_length, const uint8_t *primary, size_t primary_length,
                                   const uint8_t *secondary, size_t secondary_length, uint32_t address, uint32_t n, uint32_t from, bool write,
                                   uint32_t fields[4]);

/* Field: 1 if one block holds all n bytes and each is written, else 0. */
uint32_t block_monitor_desk_initialised(const uint32_t map[4], const uint8_t *heap, size_t heap_length, const uint8_t *primary,
                                        size_t primary_length, const uint8_t *secondary, size_t secondary_length, uint32_t address, uint32_t n,
                                        uint32_t fields[4]);

/* The first block whose base is at or above the address. Fields: base, length. */
uint32_t block_monitor_desk_next(const uint32_t map[4], const uint8_t *heap, size_t heap_length, const uint8_t *primary, size_t primary_length,
                                 const uint8_t *secondary, size_t secondary_length, uint32_t address, uint32_t fields[4]);

/* The whole of the shadows is looked through. Fields: heap blocks, stack blocks, live bytes, written bytes. */
uint32_t block_monitor_desk_audit(const uint32_t map[4], const uint8_t *heap, size_t heap_length, const uint8_t *primary, size_t primary_length,
                                  const uint8_t *secondary, size_t secondary_length, uint32_t fields[4]);

/*
 * Where a heap block of this length may begin, as in the plain form, by gaps in segments of 16 bytes. It only looks: record comes next. Fields: base,
 * gaps looked at, surplus (the gap's bytes less the header and the block's whole segments).
 */
uint32_t block_monitor_desk_place(const uint32_t map[4], const uint8_t *heap, size_t heap_length, const uint8_t *primary, size_t primary_length,
                                  const uint8_t *secondary, size_t secondary_length, uint32_t length, uint32_t budget, uint32_t fields[4]);

/* The two questions of a range, each by its name. */
static inline uint32_t block_monitor_desk_valid(const uint32_t map[4], const uint8_t *heap, size_t heap_length, const uint8_t *primary,
                                                size_t primary_length, const uint8_t *secondary, size_t secondary_length, uint32_t address,
                                                uint32_t n, uint32_t from, uint32_t fields[4])
{
    return block_monitor_desk_access(map, heap, heap_length, primary, primary_length, secondary, secondary_length, address, n, from, true,
                                     fields);
}

static inline uint32_t block_monitor_desk_valid_read(const uint32_t map[4], const uint8_t *heap, size_t heap_length, const uint8_t *primary,
                                                     size_t primary_length, const uint8_t *secondary, size_t secondary_length, uint32_t address,
                                                     uint32_t n, uint32_t from, uint32_t fields[4])
{
    return block_monitor_desk_access(map, heap, heap_length, primary, primary_length, secondary, secondary_length, address, n, from, false,
                                     fields);
}

/*
 * The same calls with map and shadows in one struct, and answers with names. A block_monitor_desk is set up once, by an initialiser:
 *
 *     static const struct block_monitor_desk monitor = {
 *         .map = {HEAP_START, HEAP_SIZE, STACK_START, STACK_SIZE},
 *         .heap = heap_shadow, .heap_length = sizeof heap_shadow,
 *         .primary = primary_shadow, .primary_length = sizeof primary_shadow,
 *         .secondary = secondary_shadow, .secondary_length = sizeof secondary_shadow};
 *
 * Name its members, as here: members that later versions add are then zero.
 */
struct block_monitor_desk {
    BLOCK_MONITOR_MEMBERS
};

static inline uint32_t monitor_desk_clear(const struct block_monitor_desk *monitor)
{
    uint32_t fields[4];
    return block_monitor_desk_clear(BLOCK_MONITOR_LENT(monitor), fields);
}

static inline uint32_t monitor_desk_record(const struct block_monitor_desk *monitor, uint32_t base, uint32_t length)
{
    uint32_t fields[4];
    return block_monitor_desk_begin(BLOCK_MONITOR_LENT(monitor), base, length, BLOCK_MONITOR_BEGIN_UNWRITTEN, fields);
}

static inline uint32_t monitor_desk_record_written(const struct block_monitor_desk *monitor, uint32_t base, uint32_t length)
{
    uint32_t fields[4];
    return block_monitor_desk_begin(BLOCK_MONITOR_LENT(monitor), base, length, BLOCK_MONITOR_BEGIN_WRITTEN, fields);
}

static inline uint32_t monitor_desk_record_literal(const struct block_monitor_desk *monitor, uint32_t base, uint32_t length)
{
    uint32_t fields[4];
    return block_monitor_desk_begin(BLOCK_MONITOR_LENT(monitor), base, length, BLOCK_MONITOR_BEGIN_LITERAL, fields);
}

static inline uint32_t monitor_desk_free(const struct block_monitor_desk *monitor, uint32_t base)
{
    uint32_t fields[4];
    return block_monitor_desk_free(BLOCK_MONITOR_LENT(monitor), base, fields);
}

static inline uint32_t monitor_desk_remove(const struct block_monitor_desk *monitor, uint32_t base)
{
    uint32_t fields[4];
    return block_monitor_desk_remove(BLOCK_MONITOR_LENT(monitor), base, fields);
}

static inline uint32_t monitor_desk_written(const struct block_monitor_desk *monitor, uint32_t address, uint32_t n)
{
    uint32_t fields[4];
    return block_monitor_desk_written(BLOCK_MONITOR_LENT(monitor), address, n, fields);
}

static inline uint32_t monitor_desk_ask(const struct block_monitor_desk *monitor, uint32_t address, struct block_monitor_block *block)
{
    uint32_t fields[4];
    uint32_t number = block_monitor_desk_ask(BLOCK_MONITOR_LENT(monitor), address, fields);
    *block = block_monitor_block_of(fields);
    return number;
}

/* answer: 1 or 0; also 0 where the call is refused, so that a caller who looks at the answer alone is on the safe side. */
static inline uint32_t monitor_desk_valid(const struct block_monitor_desk *monitor, uint32_t address, uint32_t n, uint32_t from,
                                          uint32_t *answer)
{
    uint32_t fields[4];
    uint32_t number = block_monitor_desk_valid(BLOCK_MONITOR_LENT(monitor), address, n, from, fields);
    *answer = fields[0];
    return number;
}

/* answer: as for monitor_desk_valid. */
static inline uint32_t monitor_desk_valid_read(const struct block_monitor_desk *monitor, uint32_t address, uint32_t n, uint32_t from,
                                               uint32_t *answer)
{
    uint32_t fields[4];
    uint32_t number = block_monitor_desk_valid_read(BLOCK_MONITOR_LENT(monitor), address, n, from, fields);
    *answer = fields[0];
    return number;
}

/* answer: as for monitor_desk_valid. */
static inline uint32_t monitor_desk_initialised(const struct block_monitor_desk *monitor, uint32_t address, uint32_t n, uint32_t *answer)
{
    uint32_t fields[4];
    uint32_t number = block_monitor_desk_initialised(BLOCK_MONITOR_LENT(monitor), address, n, fields);
    *answer = fields[0];
    return number;
}

static inline uint32_t monitor_desk_next(const struct block_monitor_desk *monitor, uint32_t address, struct block_monitor_block *block)
{
    uint32_t fields[4];
    uint32_t number = block_monitor_desk_next(BLOCK_MONITOR_LENT(monitor), address, fields);
    *block = block_monitor_block_of(fields);
    return number;
}

static inline uint32_t monitor_desk_audit(const struct block_monitor_desk *monitor, struct block_monitor_totals *totals)
{
    uint32_t fields[4];
    uint32_t number = block_monitor_desk_audit(BLOCK_MONITOR_LENT(monitor), fields);
    *totals = block_monitor_totals_of(fields);
    return number;
}

/* Nothing is taken yet: until record tells of the block, the next monitor_desk_place may answer the same base. */
static inline uint32_t monitor_desk_place(const struct block_monitor_desk *monitor, uint32_t length, uint32_t budget,
                                          struct block_monitor_room *room)
{
    uint32_t fields[4];
    uint32_t number = block_monitor_desk_place(BLOCK_MONITOR_LENT(monitor), length, budget, fields);
    *room = block_monitor_room_of(fields);
    return number;
}

#ifdef __cplusplus
}
#endif

#endif
