/*
 * The block monitor in the form with origins, for C99 and C++.
 *
 * It does what the plain form does (block_monitor.h), but for place, and knows besides when a pointer outlives its block and a later block has
 * taken the place. Each allocation gets a number of its own, its origin. The program tells where it keeps a pointer, in four bytes of its own
 * memory, and when that pointer is set or copied; before it is used, live tells whether the very allocation that it was set to is still there.
 *
 * Link with target/staticlib/liborigins_c.a (./build-c.sh makes it); a program may link the other libraries too. docs/C-INTERFACE.md has an example for
 * each call.
 */
#ifndef BLOCK_MONITOR_ORIGINS_H
#define BLOCK_MONITOR_ORIGINS_H

#include "block_monitor.h"

#ifdef __cplusplus
extern "C" {
#endif

/*
 * Sizes, in bytes. A cell is four bytes of either area, at a multiple of BLOCK_MONITOR_CELL, that may hold a pointer; every base is a multiple
 * of it too. The shadow of the heap's cells is twice as long as the heap area, that of the stack's cells twice as long as the stack area.
 */
#define BLOCK_MONITOR_CELL 4
#define BLOCK_MONITOR_CELLS 2 /* times an area's size */

/*
 * The calls themselves.
 *
 * Map, shadows, addresses and fields are those of the plain form. heap_cells and stack_cells are two shadows more. They begin as zeros, and the
 * counter as 1; from then on these calls alone write them, and one counter goes with one set of shadows. counter is read, and written where
 * the call is accepted.
 */

/* All shadows and all cells become zero: no block is left, no pointer is set. The counter stays, so that no origin comes twice. */
uint32_t block_monitor_origins_clear(const uint32_t map[4], uint8_t *heap, size_t heap_length, uint8_t *primary, size_t primary_length,
                                     uint8_t *secondary, size_t secondary_length, uint8_t *heap_cells, size_t heap_cells_length,
                                     uint8_t *stack_cells, size_t stack_cells_length, uint32_t fields[4]);

/*
 * A block begins, heap or stack by its base, a multiple of 4 in either; a literal in the stack area alone. how is a block_monitor_beginning. The
 * counter is its origin, then adds 1.
 */
uint32_t block_monitor_origins_begin(const uint32_t map[4], uint8_t *heap, size_t heap_length, uint8_t *primary, size_t primary_length,
                                     uint8_t *secondary, size_t secondary_length, uint8_t *heap_cells, size_t heap_cells_length,
                                     uint8_t *stack_cells, size_t stack_cells_length, uint32_t base, uint32_t length, uint8_t how,
                                     uint64_t *counter, uint32_t fields[4]);

/*
 * The heap block with this base ends, and with it each pointer that is kept in it. Addresses in the stack area are refused, and with 0 it does
 * nothing, as in the plain form.
 */
uint32_t block_monitor_origins_free(const uint32_t map[4], uint8_t *heap, size_t heap_length, const uint8_t *primary, size_t primary_length,
                                    const uint8_t *secondary, size_t secondary_length, uint8_t *heap_cells, size_t heap_cells_length,
                                    const uint8_t *stack_cells, size_t stack_cells_length, uint32_t base, uint32_t fields[4]);

/* The stack block with this base ends, a literal too, and with it each pointer that is kept in it. Addresses outside the stack area are refused. */
uint32_t block_monitor_origins_remove(const uint32_t map[4], const uint8_t *heap, size_t heap_length, uint8_t *primary, size_t primary_length,
                                      uint8_t *secondary, size_t secondary_length, const uint8_t *heap_cells, size_t heap_cells_length,
                                      uint8_t *stack_cells, size_t stack_cells_length, uint32_t base, uint32_t fields[4]);

/* n bytes of one block, which is no literal, count as written from now on. */
uint32_t block_monitor_origins_written(const uint32_t map[4], uint8_t *heap, size_t heap_length, uint8_t *primary, size_t primary_length,
                                       uint8_t *secondary, size_t secondary_length, const uint8_t *heap_cells, size_t heap_cells_length,
                                       const uint8_t *stack_cells, size_t stack_cells_length, uint32_t address, uint32_t n, uint32_t fields[4]);

/* The block that holds an address. Fields: base, length, offset of the address, 1 if this byte is written, else 0. */
uint32_t block_monitor_origins_ask(const uint32_t map[4], const uint8_t *heap, size_t heap_length, const uint8_t *primary,
                                   size_t primary_length, const uint8_t *secondary, size_t secondary_length, const uint8_t *heap_cells,
                                   size_t heap_cells_length, const uint8_t *stack_cells, size_t stack_cells_length, uint32_t address,
                                   uint32_t fields[4]);

/* Field: 1 if one block holds from and all n bytes at the address and, where write is true, is no literal, else 0. */
uint32_t block_monitor_origins_access(const uint32_t map[4], const uint8_t *heap, size_t heap_length, const uint8_t *primary,
                                      size_t primary_length, const uint8_t *secondary, size_t secondary_length, const uint8_t *heap_cells,
                                      size_t heap_cells_length, const uint8_t *stack_cells, size_t stack_cells_length, uint32_t address,
                                      uint32_t n, uint32_t from, bool write, uint32_t fields[4]);

/* Field: 1 if one block holds all n bytes and each is written, else 0. */
uint32_t block_monitor_origins_initialised(const uint32_t map[4], const uint8_t *heap, size_t heap_length, const uint8_t *primary,
                                           size_t primary_length, const uint8_t *secondary, size_t secondary_length, const uint8_t *heap_cells,
                                           size_t heap_cells_length, const uint8_t *stack_cells, size_t stack_cells_length, uint32_t address,
                                           uint32_t n, uint32_t fields[4]);

/* The first block whose base is at or above the address. Fields: base, length. */
uint32_t block_monitor_origins_next(const uint32_t map[4], const uint8_t *heap, size_t heap_length, const uint8_t *primary,
                                    size_t primary_length, const uint8_t *secondary, size_t secondary_length, const uint8_t *heap_cells,
                                    size_t heap_cells_length, const uint8_t *stack_cells, size_t stack_cells_length, uint32_t address,
                                    uint32_t fields[4]);

/* The three block shadows are looked through, the cells are not. Fields: heap blocks, stack blocks, live bytes, written bytes. */
uint32_t block_monitor_origins_audit(const uint32_t map[4], const uint8_t *heap, size_t heap_length, const uint8_t *primary,
                                     size_t primary_length, const uint8_t *secondary, size_t secondary_length, const uint8_t *heap_cells,
                                     size_t heap_cells_length, const uint8_t *stack_cells, size_t stack_cells_length, uint32_t fields[4]);

/* The pointer in this cell, which may lie in a literal too, is set to the block that holds the address, or to none where no block does. */
uint32_t block_monitor_origins_point(const uint32_t map[4], const uint8_t *heap, size_t heap_length, const uint8_t *primary,
                                     size_t primary_length, const uint8_t *secondary, size_t secondary_length, uint8_t *heap_cells,
                                     size_t heap_cells_length, uint8_t *stack_cells, size_t stack_cells_length, uint32_t cell, uint32_t address,
                                     uint32_t fields[4]);

/* The pointer in the cell to is set as that in the cell from: the copy of a pointer that is not set, or whose block has ended, is the same. */
uint32_t block_monitor_origins_copy(const uint32_t map[4], const uint8_t *heap, size_t heap_length, const uint8_t *primary,
                                    size_t primary_length, const uint8_t *secondary, size_t secondary_length, uint8_t *heap_cells,
                                    size_t heap_cells_length, uint8_t *stack_cells, size_t stack_cells_length, uint32_t to, uint32_t from,
                                    uint32_t fields[4]);

/* Field: 1 if the very allocation that the pointer in this cell was last set to is live and holds the address, else 0. */
uint32_t block_monitor_origins_live(const uint32_t map[4], const uint8_t *heap, size_t heap_length, const uint8_t *primary,
                                    size_t primary_length, const uint8_t *secondary, size_t secondary_length, const uint8_t *heap_cells,
                                    size_t heap_cells_length, const uint8_t *stack_cells, size_t stack_cells_length, uint32_t cell,
                                    uint32_t address, uint32_t fields[4]);

/* The two questions of a range, each by its name. */
static inline uint32_t block_monitor_origins_valid(const uint32_t map[4], const uint8_t *heap, size_t heap_length, const uint8_t *primary,
                                                   size_t primary_length, const uint8_t *secondary, size_t secondary_length,
                                                   const uint8_t *heap_cells, size_t heap_cells_length, const uint8_t *stack_cells,
                                                   size_t stack_cells_length, uint32_t address, uint32_t n, uint32_t from, uint32_t fields[4])
{
    return block_monitor_origins_access(map, heap, heap_length, primary, primary_length, secondary, secondary_length, heap_cells,
                                        heap_cells_length, stack_cells, stack_cells_length, address, n, from, true, fields);
}

static inline uint32_t block_monitor_origins_valid_read(const uint32_t map[4], const uint8_t *heap, size_t heap_length, const uint8_t *primary,
                                                        size_t primary_length, const uint8_t *secondary, size_t secondary_length,
                                                        const uint8_t *heap_cells, size_t heap_cells_length, const uint8_t *stack_cells,
                                                        size_t stack_cells_length, uint32_t address, uint32_t n, uint32_t from,
                                                        uint32_t fields[4])
{
    return block_monitor_origins_access(map, heap, heap_length, primary, primary_length, secondary, secondary_length, heap_cells,
                                        heap_cells_length, stack_cells, stack_cells_length, address, n, from, false, fields);
}

/*
 * The same calls with map, shadows, cells and counter in one struct, and answers with names. It is set up once, by an initialiser, and is not
 * const, for the counter's sake:
 *
 *     static struct block_monitor_origins monitor = {
 *         .map = {HEAP_START, HEAP_SIZE, STACK_START, STACK_SIZE},
 *         .heap = heap_shadow, .heap_length = sizeof heap_shadow,
 *         .primary = primary_shadow, .primary_length = sizeof primary_shadow,
 *         .secondary = secondary_shadow, .secondary_length = sizeof secondary_shadow,
 *         .heap_cells = heap_cells, .heap_cells_length = sizeof heap_cells,
 *         .stack_cells = stack_cells, .stack_cells_length = sizeof stack_cells,
 *         .counter = 1};
 *
 * Name its members, as here: members that later versions add are then zero.
 */
struct block_monitor_origins {
    BLOCK_MONITOR_MEMBERS
    uint8_t *heap_cells;
    size_t heap_cells_length;
    uint8_t *stack_cells;
    size_t stack_cells_length;
    uint64_t counter; /* the next origin: 1 at first, and never set back */
};

/* The arguments that all calls begin with, of a pointer to a block_monitor_origins. */
#define BLOCK_MONITOR_ORIGINS_LENT(m) \
    BLOCK_MONITOR_LENT(m), (m)->heap_cells, (m)->heap_cells_length, (m)->stack_cells, (m)->stack_cells_length

static inline uint32_t monitor_origins_clear(const struct block_monitor_origins *monitor)
{
    uint32_t fields[4];
    return block_monitor_origins_clear(BLOCK_MONITOR_ORIGINS_LENT(monitor), fields);
}

static inline uint32_t monitor_origins_record(struct block_monitor_origins *monitor, uint32_t base, uint32_t length)
{
    uint32_t fields[4];
    return block_monitor_origins_begin(BLOCK_MONITOR_ORIGINS_LENT(monitor), base, length, BLOCK_MONITOR_BEGIN_UNWRITTEN, &monitor->counter,
                                       fields);
}

static inline uint32_t monitor_origins_record_written(struct block_monitor_origins *monitor, uint32_t base, uint32_t length)
{
    uint32_t fields[4];
    return block_monitor_origins_begin(BLOCK_MONITOR_ORIGINS_LENT(monitor), base, length, BLOCK_MONITOR_BEGIN_WRITTEN, &monitor->counter,
                                       fields);
}

static inline uint32_t monitor_origins_record_literal(struct block_monitor_origins *monitor, uint32_t base, uint32_t length)
{
    uint32_t fields[4];
    return block_monitor_origins_begin(BLOCK_MONITOR_ORIGINS_LENT(monitor), base, length, BLOCK_MONITOR_BEGIN_LITERAL, &monitor->counter,
                                       fields);
}

static inline uint32_t monitor_origins_free(const struct block_monitor_origins *monitor, uint32_t base)
{
    uint32_t fields[4];
    return block_monitor_origins_free(BLOCK_MONITOR_ORIGINS_LENT(monitor), base, fields);
}

static inline uint32_t monitor_origins_remove(const struct block_monitor_origins *monitor, uint32_t base)
{
    uint32_t fields[4];
    return block_monitor_origins_remove(BLOCK_MONITOR_ORIGINS_LENT(monitor), base, fields);
}

static inline uint32_t monitor_origins_written(const struct block_monitor_origins *monitor, uint32_t address, uint32_t n)
{
    uint32_t fields[4];
    return block_monitor_origins_written(BLOCK_MONITOR_ORIGINS_LENT(monitor), address, n, fields);
}

static inline uint32_t monitor_origins_ask(const struct block_monitor_origins *monitor, uint32_t address, struct block_monitor_block *block)
{
    uint32_t fields[4];
    uint32_t number = block_monitor_origins_ask(BLOCK_MONITOR_ORIGINS_LENT(monitor), address, fields);
    *block = block_monitor_block_of(fields);
    return number;
}

/* answer: 1 or 0; also 0 where the call is refused, so that a caller who looks at the answer alone is on the safe side. */
static inline uint32_t monitor_origins_valid(const struct block_monitor_origins *monitor, uint32_t address, uint32_t n, uint32_t from,
                                             uint32_t *answer)
{
    uint32_t fields[4];
    uint32_t number = block_monitor_origins_valid(BLOCK_MONITOR_ORIGINS_LENT(monitor), address, n, from, fields);
    *answer = fields[0];
    return number;
}

/* answer: as for monitor_origins_valid. */
static inline uint32_t monitor_origins_valid_read(const struct block_monitor_origins *monitor, uint32_t address, uint32_t n, uint32_t from,
                                                  uint32_t *answer)
{
    uint32_t fields[4];
    uint32_t number = block_monitor_origins_valid_read(BLOCK_MONITOR_ORIGINS_LENT(monitor), address, n, from, fields);
    *answer = fields[0];
    return number;
}

/* answer: as for monitor_origins_valid. */
static inline uint32_t monitor_origins_initialised(const struct block_monitor_origins *monitor, uint32_t address, uint32_t n, uint32_t *answer)
{
    uint32_t fields[4];
    uint32_t number = block_monitor_origins_initialised(BLOCK_MONITOR_ORIGINS_LENT(monitor), address, n, fields);
    *answer = fields[0];
    return number;
}

static inline uint32_t monitor_origins_next(const struct block_monitor_origins *monitor, uint32_t address, struct block_monitor_block *block)
{
    uint32_t fields[4];
    uint32_t number = block_monitor_origins_next(BLOCK_MONITOR_ORIGINS_LENT(monitor), address, fields);
    *block = block_monitor_block_of(fields);
    return number;
}

static inline uint32_t monitor_origins_audit(const struct block_monitor_origins *monitor, struct block_monitor_totals *totals)
{
    uint32_t fields[4];
    uint32_t number = block_monitor_origins_audit(BLOCK_MONITOR_ORIGINS_LENT(monitor), fields);
    *totals = block_monitor_totals_of(fields);
    return number;
}

static inline uint32_t monitor_origins_point(const struct block_monitor_origins *monitor, uint32_t cell, uint32_t address)
{
    uint32_t fields[4];
    return block_monitor_origins_point(BLOCK_MONITOR_ORIGINS_LENT(monitor), cell, address, fields);
}

static inline uint32_t monitor_origins_copy(const struct block_monitor_origins *monitor, uint32_t to, uint32_t from)
{
    uint32_t fields[4];
    return block_monitor_origins_copy(BLOCK_MONITOR_ORIGINS_LENT(monitor), to, from, fields);
}

/* answer: as for monitor_origins_valid. */
static inline uint32_t monitor_origins_live(const struct block_monitor_origins *monitor, uint32_t cell, uint32_t address, uint32_t *answer)
{
    uint32_t fields[4];
    uint32_t number = block_monitor_origins_live(BLOCK_MONITOR_ORIGINS_LENT(monitor), cell, address, fields);
    *answer = fields[0];
    return number;
}

#ifdef __cplusplus
}
#endif

#endif
