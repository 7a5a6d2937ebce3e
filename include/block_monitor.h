/*
 * The block monitor, for C99 and C++.
 *
 * A program that works on lent memory tells the monitor of every allocation and release, and asks it before every pointer use. The monitor
 * keeps what it knows in three shadows that the caller lends; it allocates nothing and keeps no state of its own.
 *
 * Link with target/staticlib/libmonitor_c.a (./build-c.sh makes it). docs/C-INTERFACE.md has an example for each call. The form with origins,
 * which also knows stale pointers, is in block_monitor_origins.h, the form for 64-bit desks in block_monitor_desk.h; what all of them share, as
 * numbers and structs of answers, in block_monitor_common.h.
 */
#ifndef BLOCK_MONITOR_H
#define BLOCK_MONITOR_H

#include "block_monitor_common.h"

#ifdef __cplusplus
extern "C" {
#endif

/* Sizes, in bytes. Starts and sizes of both areas are multiples of BLOCK_MONITOR_SEGMENT. */
#define BLOCK_MONITOR_SEGMENT 8 /* heap bases are multiples of it */
#define BLOCK_MONITOR_HEADER 8  /* bytes before each heap block that no other block may hold */

/*
 * The calls themselves.
 *
 * map holds heap start, heap size, stack start, stack size. Addresses are numbers of 32 bits that count from the caller's own origin: a byte at
 * place p of an area has the address start + p. A shadow is a pointer and the number of bytes behind it. fields receives the answer, zero where
 * a call has none. No pointer is null. Map, shadows and fields share no byte, and nothing else uses them until the call returns.
 */

/* All shadows become zero: no block is left. */
uint32_t block_monitor_clear(const uint32_t map[4], uint8_t *heap, size_t heap_length, uint8_t *primary, size_t primary_length,
                             uint8_t *secondary, size_t secondary_length, uint32_t fields[4]);

/* A block begins, heap or stack by its base; a literal in the stack area alone: any base in the heap is outside. how is a block_monitor_beginning. */
uint32_t block_monitor_begin(const uint32_t map[4], uint8_t *heap, size_t heap_length, uint8_t *primary, size_t primary_length,
                             uint8_t *secondary, size_t secondary_length, uint32_t base, uint32_t length, uint8_t how, uint32_t fields[4]);

/*
 * The heap block with this base ends. C forbids freeing automatic objects: every address in the stack area is refused, and the block there stays.
 * With 0, the null pointer's address, it is accepted after 1 and 2 and does nothing, as C's free does. So no other pointer may be given as 0;
 * every other address in neither area is refused.
 */
uint32_t block_monitor_free(const uint32_t map[4], uint8_t *heap, size_t heap_length, const uint8_t *primary, size_t primary_length,
                            const uint8_t *secondary, size_t secondary_length, uint32_t base, uint32_t fields[4]);

/* The stack block with this base ends, as an automatic object does; a literal too. Every address outside the stack area is refused, 0 as well. */
uint32_t block_monitor_remove(const uint32_t map[4], const uint8_t *heap, size_t heap_length, uint8_t *primary, size_t primary_length,
                              uint8_t *secondary, size_t secondary_length, uint32_t base, uint32_t fields[4]);

/* n bytes of one block, which is no literal, count as written from now on. */
uint32_t block_monitor_written(const uint32_t map[4], uint8_t *heap, size_t heap_length, uint8_t *primary, size_t primary_length,
                               uint8_t *secondary, size_t secondary_length, uint32_t address, uint32_t n, uint32_t fields[4]);

/* The block that holds an address. Fields: base, length, offset of the address, 1 if this byte is written, else 0. */
uint32_t block_monitor_ask(const uint32_t map[4], const uint8_t *heap, size_t heap_length, const uint8_t *primary, size_t primary_length,
                           const uint8_t *secondary, size_t secondary_length, uint32_t address, uint32_t fields[4]);

/*
 * Field: 1 if one block holds from and all n bytes at the address and, where write is true, is no literal, else 0. Before a write, with write; before
 * a read, without.
 */
uint32_t block_monitor_access(const uint32_t map[4], const uint8_t *heap, size_t heap_length, const uint8_t *primary, size_t primary_length,
                              const uint8_t *secondary, size_t secondary_length, uint32_t address, uint32_t n, uint32_t from, bool write,
                              uint32_t fields[4]);

/* Field: 1 if one block holds all n bytes and each is written, else 0. */
uint32_t block_monitor_initialised(const uint32_t map[4], const uint8_t *heap, size_t heap_length, const uint8_t *primary,
                                   size_t primary_length, const uint8_t *secondary, size_t secondary_length, uint32_t address, uint32_t n,
                                   uint32_t fields[4]);

/* The first block whose base is at or above the address. Fields: base, length. */
uint32_t block_monitor_next(const uint32_t map[4], const uint8_t *heap, size_t heap_length, const uint8_t *primary, size_t primary_length,
                            const uint8_t *secondary, size_t secondary_length, uint32_t address, uint32_t fields[4]);

/* The whole of the shadows is looked through. Fields: heap blocks, stack blocks, live bytes, written bytes. */
uint32_t block_monitor_audit(const uint32_t map[4], const uint8_t *heap, size_t heap_length, const uint8_t *primary, size_t primary_length,
                             const uint8_t *secondary, size_t secondary_length, uint32_t fields[4]);

/*
 * Where a heap block of this length may begin: in the smallest gap that holds it with its header, the lowest among equals, of as many gaps as
 * the budget says, or of all. A gap is a longest run of heap shadow segments whose bytes are all zero. It only looks: record comes next.
 * Fields: base, gaps looked at, surplus (the gap's bytes less the header and the block's whole segments).
 */
uint32_t block_monitor_place(const uint32_t map[4], const uint8_t *heap, size_t heap_length, const uint8_t *primary, size_t primary_length,
                             const uint8_t *secondary, size_t secondary_length, uint32_t length, uint32_t budget, uint32_t fields[4]);

/* The ways to record, and the two questions of a range, each by its name. */
static inline uint32_t block_monitor_record(const uint32_t map[4], uint8_t *heap, size_t heap_length, uint8_t *primary, size_t primary_length,
                                            uint8_t *secondary, size_t secondary_length, uint32_t base, uint32_t length, uint32_t fields[4])
{
    return block_monitor_begin(map, heap, heap_length, primary, primary_length, secondary, secondary_length, base, length,
                               BLOCK_MONITOR_BEGIN_UNWRITTEN, fields);
}

static inline uint32_t block_monitor_record_written(const uint32_t map[4], uint8_t *heap, size_t heap_length, uint8_t *primary,
                                                    size_t primary_length, uint8_t *secondary, size_t secondary_length, uint32_t base,
                                                    uint32_t length, uint32_t fields[4])
{
    return block_monitor_begin(map, heap, heap_length, primary, primary_length, secondary, secondary_length, base, length,
                               BLOCK_MONITOR_BEGIN_WRITTEN, fields);
}

static inline uint32_t block_monitor_record_literal(const uint32_t map[4], uint8_t *heap, size_t heap_length, uint8_t *primary,
                                                    size_t primary_length, uint8_t *secondary, size_t secondary_length, uint32_t base,
                                                    uint32_t length, uint32_t fields[4])
{
    return block_monitor_begin(map, heap, heap_length, primary, primary_length, secondary, secondary_length, base, length,
                               BLOCK_MONITOR_BEGIN_LITERAL, fields);
}

static inline uint32_t block_monitor_valid(const uint32_t map[4], const uint8_t *heap, size_t heap_length, const uint8_t *primary,
                                           size_t primary_length, const uint8_t *secondary, size_t secondary_length, uint32_t address,
                                           uint32_t n, uint32_t from, uint32_t fields[4])
{
    return block_monitor_access(map, heap, heap_length, primary, primary_length, secondary, secondary_length, address, n, from, true, fields);
}

static inline uint32_t block_monitor_valid_read(const uint32_t map[4], const uint8_t *heap, size_t heap_length, const uint8_t *primary,
                                                size_t primary_length, const uint8_t *secondary, size_t secondary_length, uint32_t address,
                                                uint32_t n, uint32_t from, uint32_t fields[4])
{
    return block_monitor_access(map, heap, heap_length, primary, primary_length, secondary, secondary_length, address, n, from, false, fields);
}

/*
 * The same calls with map and shadows in one struct, and answers with names. A block_monitor is set up once, by an initialiser:
 *
 *     static const struct block_monitor monitor = {
 *         .map = {HEAP_START, HEAP_SIZE, STACK_START, STACK_SIZE},
 *         .heap = heap_shadow, .heap_length = sizeof heap_shadow,
 *         .primary = primary_shadow, .primary_length = sizeof primary_shadow,
 *         .secondary = secondary_shadow, .secondary_length = sizeof secondary_shadow};
 *
 * Name its members, as here: members that later versions add are then zero.
 */
struct block_monitor {
    BLOCK_MONITOR_MEMBERS
};

static inline uint32_t monitor_clear(const struct block_monitor *monitor)
{
    uint32_t fields[4];
    return block_monitor_clear(BLOCK_MONITOR_LENT(monitor), fields);
}

static inline uint32_t monitor_record(const struct block_monitor *monitor, uint32_t base, uint32_t length)
{
    uint32_t fields[4];
    return block_monitor_record(BLOCK_MONITOR_LENT(monitor), base, length, fields);
}

static inline uint32_t monitor_record_written(const struct block_monitor *monitor, uint32_t base, uint32_t length)
{
    uint32_t fields[4];
    return block_monitor_record_written(BLOCK_MONITOR_LENT(monitor), base, length, fields);
}

static inline uint32_t monitor_record_literal(const struct block_monitor *monitor, uint32_t base, uint32_t length)
{
    uint32_t fields[4];
    return block_monitor_record_literal(BLOCK_MONITOR_LENT(monitor), base, length, fields);
}

static inline uint32_t monitor_free(const struct block_monitor *monitor, uint32_t base)
{
    uint32_t fields[4];
    return block_monitor_free(BLOCK_MONITOR_LENT(monitor), base, fields);
}

static inline uint32_t monitor_remove(const struct block_monitor *monitor, uint32_t base)
{
    uint32_t fields[4];
    return block_monitor_remove(BLOCK_MONITOR_LENT(monitor), base, fields);
}

static inline uint32_t monitor_written(const struct block_monitor *monitor, uint32_t address, uint32_t n)
{
    uint32_t fields[4];
    return block_monitor_written(BLOCK_MONITOR_LENT(monitor), address, n, fields);
}

static inline uint32_t monitor_ask(const struct block_monitor *monitor, uint32_t address, struct block_monitor_block *block)
{
    uint32_t fields[4];
    uint32_t number = block_monitor_ask(BLOCK_MONITOR_LENT(monitor), address, fields);
    *block = block_monitor_block_of(fields);
    return number;
}

/* answer: 1 or 0; also 0 where the call is refused, so that a caller who looks at the answer alone is on the safe side. */
static inline uint32_t monitor_valid(const struct block_monitor *monitor, uint32_t address, uint32_t n, uint32_t from, uint32_t *answer)
{
    uint32_t fields[4];
    uint32_t number = block_monitor_valid(BLOCK_MONITOR_LENT(monitor), address, n, from, fields);
    *answer = fields[0];
    return number;
}

/* answer: as for monitor_valid. */
static inline uint32_t monitor_valid_read(const struct block_monitor *monitor, uint32_t address, uint32_t n, uint32_t from, uint32_t *answer)
{
    uint32_t fields[4];
    uint32_t number = block_monitor_valid_read(BLOCK_MONITOR_LENT(monitor), address, n, from, fields);
    *answer = fields[0];
    return number;
}

/* answer: as for monitor_valid. */
static inline uint32_t monitor_initialised(const struct block_monitor *monitor, uint32_t address, uint32_t n, uint32_t *answer)
{
    uint32_t fields[4];
    uint32_t number = block_monitor_initialised(BLOCK_MONITOR_LENT(monitor), address, n, fields);
    *answer = fields[0];
    return number;
}

static inline uint32_t monitor_next(const struct block_monitor *monitor, uint32_t address, struct block_monitor_block *block)
{
    uint32_t fields[4];
    uint32_t number = block_monitor_next(BLOCK_MONITOR_LENT(monitor), address, fields);
    *block = block_monitor_block_of(fields);
    return number;
}

static inline uint32_t monitor_audit(const struct block_monitor *monitor, struct block_monitor_totals *totals)
{
    uint32_t fields[4];
    uint32_t number = block_monitor_audit(BLOCK_MONITOR_LENT(monitor), fields);
    *totals = block_monitor_totals_of(fields);
    return number;
}

/* Nothing is taken yet: until record tells of the block, the next monitor_place may answer the same base. */
static inline uint32_t monitor_place(const struct block_monitor *monitor, uint32_t length, uint32_t budget, struct block_monitor_room *room)
{
    uint32_t fields[4];
    uint32_t number = block_monitor_place(BLOCK_MONITOR_LENT(monitor), length, budget, fields);
    *room = block_monitor_room_of(fields);
    return number;
}

#ifdef __cplusplus
}
#endif

#endif
