/*
 * What all forms of the block monitor share, for C99 and C++: sizes, the numbers that calls return, what is lent, the structs of answers. A program
 * takes in the header of its form, which takes in this one: block_monitor.h (the plain form), block_monitor_origins.h (the form with origins) or
 * block_monitor_desk.h (the desk form).
 */
#ifndef BLOCK_MONITOR_COMMON_H
#define BLOCK_MONITOR_COMMON_H

#include <stdbool.h>
#include <stddef.h>
#include <stdint.h>

#ifdef __cplusplus
extern "C" {
#endif

/*
 * Sizes, in bytes. The areas are the memory that is watched; the stack area also carries static objects. The heap shadow is as long as the heap
 * area, primary and secondary shadow are each as long as the stack area. The form's header has the heap's segment, of which start and size are
 * multiples; those of the stack area are multiples of 8 in every form. The smallest size is that of
 * every area but a desk's heap, which block_monitor_desk.h has.
 */
#define BLOCK_MONITOR_SMALLEST_AREA 16
#define BLOCK_MONITOR_LARGEST_HEAP 131072
#define BLOCK_MONITOR_LARGEST_STACK 65536

/*
 * What a call returns: accepted, or why it is refused. A refused call stores zero in every field and alters no shadow byte. The lowest number
 * that holds is returned, but 8 comes before 7, and 15 before both. Where a number is said to be record's, it is that of record_written and
 * record_literal as well, but that a heap base is 4 of the last. 11 and 12 are of the form with origins alone, which has no 14. Later numbers may
 * be added: take any that is not 0 for a refusal.
 */
enum block_monitor_number {
    BLOCK_MONITOR_ACCEPTED = 0,
    BLOCK_MONITOR_BAD_MAP = 1,       /* the map breaks a rule */
    BLOCK_MONITOR_SHADOW_LENGTH = 2, /* a shadow is not as long as its area; with origins: or cells are not twice as long */
    BLOCK_MONITOR_NO_BYTES = 3,      /* length or n is 0 */
    BLOCK_MONITOR_OUTSIDE = 4,       /* in neither area, but for free of 0; record: no room for block or header; record_literal, remove: in the heap */
    BLOCK_MONITOR_UNALIGNED = 5,     /* record: the heap base is no multiple of 8, in the desk form of 16; with origins: or the stack base none of 4 */
    BLOCK_MONITOR_OCCUPIED = 6,      /* record: the place, with its header, is not free */
    BLOCK_MONITOR_NO_BLOCK = 7,      /* no block there; free, remove: not its first byte; written: not all in one; next: none follows */
    BLOCK_MONITOR_DAMAGED = 8,       /* a shadow was overwritten: what is met there is no block's state; audit: no list's image */
    BLOCK_MONITOR_NO_POINTER = 11,   /* point, copy, live: no cell there: no multiple of 4, or its four bytes are not in one block */
    BLOCK_MONITOR_NO_ORIGIN = 12,    /* record: the counter is no origin, 1 to 4,294,967,295 */
    BLOCK_MONITOR_LITERAL = 13,      /* written: the block is a literal, which may only be read */
    BLOCK_MONITOR_NO_GAP = 14,       /* place: no gap that was looked at holds header and block */
    BLOCK_MONITOR_NOT_HEAP = 15      /* free: in the stack area, whose blocks are removed and never freed */
};

/* How a block begins. */
enum block_monitor_beginning {
    BLOCK_MONITOR_BEGIN_UNWRITTEN = 0, /* record: no byte of it is written yet */
    BLOCK_MONITOR_BEGIN_WRITTEN = 1,   /* record_written: all are, as those of a static object, which C zeroes before main */
    BLOCK_MONITOR_BEGIN_LITERAL = 2    /* record_literal: all are, and none may be written again, as those of a string literal; so any higher number */
};

/*
 * What every form is lent: the first members of its struct. Each form has a struct of its own, so that a compiler refuses the shadows of one where
 * those of another are meant.
 */
#define BLOCK_MONITOR_MEMBERS                                             \
    uint32_t map[4]; /* heap start, heap size, stack start, stack size */ \
    uint8_t *heap;                                                        \
    size_t heap_length;                                                   \
    uint8_t *primary;                                                     \
    size_t primary_length;                                                \
    uint8_t *secondary;                                                   \
    size_t secondary_length;

/* The same as arguments, of a pointer to a form's struct: all calls begin with them. */
#define BLOCK_MONITOR_LENT(m) \
    (m)->map, (m)->heap, (m)->heap_length, (m)->primary, (m)->primary_length, (m)->secondary, (m)->secondary_length

struct block_monitor_block {
    uint32_t base;
    uint32_t length;
    uint32_t offset;  /* of the address asked for; 0 from monitor_next */
    uint32_t written; /* 1 if the byte asked for is written; 0 from monitor_next */
};

struct block_monitor_totals {
    uint32_t heap_blocks;
    uint32_t stack_blocks;
    uint32_t live_bytes;
    uint32_t written_bytes;
};

struct block_monitor_room {
    uint32_t base;    /* where the block may be recorded */
    uint32_t gaps;    /* looked at: the budget, or all where there are fewer */
    uint32_t surplus; /* bytes of the chosen gap less the header and the block's whole segments: a larger budget can gain no more than these */
};

/* Answer fields by their names; all are zero where the call is refused. */
static inline struct block_monitor_block block_monitor_block_of(const uint32_t fields[4])
{
    struct block_monitor_block block = {fields[0], fields[1], fields[2], fields[3]};
    return block;
}

static inline struct block_monitor_totals block_monitor_totals_of(const uint32_t fields[4])
{
    struct block_monitor_totals totals = {fields[0], fields[1], fields[2], fields[3]};
    return totals;
}

static inline struct block_monitor_room block_monitor_room_of(const uint32_t fields[4])
{
    struct block_monitor_room room = {fields[0], fields[1], fields[2]};
    return room;
}

/* A number in words, for messages. */
static inline const char *monitor_words(uint32_t number)
{
    switch (number) {
    case BLOCK_MONITOR_ACCEPTED: return "accepted";
    case BLOCK_MONITOR_BAD_MAP: return "the map breaks a rule";
    case BLOCK_MONITOR_SHADOW_LENGTH: return "a shadow of the wrong length";
    case BLOCK_MONITOR_NO_BYTES: return "a length of 0";
    case BLOCK_MONITOR_OUTSIDE: return "in no area that the call takes, or no room there";
    case BLOCK_MONITOR_UNALIGNED: return "a base that is not aligned";
    case BLOCK_MONITOR_OCCUPIED: return "the place is not free";
    case BLOCK_MONITOR_NO_BLOCK: return "no such block";
    case BLOCK_MONITOR_DAMAGED: return "a shadow is damaged";
    case BLOCK_MONITOR_NO_POINTER: return "no pointer can stand there";
    case BLOCK_MONITOR_NO_ORIGIN: return "the origins are used up";
    case BLOCK_MONITOR_LITERAL: return "a literal may only be read";
    case BLOCK_MONITOR_NO_GAP: return "no gap fits";
    case BLOCK_MONITOR_NOT_HEAP: return "only heap blocks may be freed";
    default: return "an unknown number";
    }
}

#ifdef __cplusplus
}
#endif

#endif
