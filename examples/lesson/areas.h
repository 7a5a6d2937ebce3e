/* The lesson's memory: a heap area with an allocator, a stack area, the shadows lent to the monitor, and the way from a pointer to an address. */
#ifndef AREAS_H
#define AREAS_H

/*
 * The form that is used: with -DORIGINS the form with origins, with -DDESK the desk form, else the plain form. FORM(ask) is its call ask, form_monitor
 * what all of its calls take: map and shadows, with origins cells and counter too. Heap start, heap size and heap bases are multiples of SEGMENT.
 */
#if defined ORIGINS
#include "block_monitor_origins.h"
typedef struct block_monitor_origins form_monitor;
#define FORM(call) monitor_origins_##call
enum { SEGMENT = BLOCK_MONITOR_SEGMENT, HEADER = BLOCK_MONITOR_HEADER };
#elif defined DESK
#include "block_monitor_desk.h"
typedef const struct block_monitor_desk form_monitor;
#define FORM(call) monitor_desk_##call
enum { SEGMENT = BLOCK_MONITOR_DESK_SEGMENT, HEADER = BLOCK_MONITOR_DESK_HEADER };
#else
#include "block_monitor.h"
typedef const struct block_monitor form_monitor;
#define FORM(call) monitor_##call
enum { SEGMENT = BLOCK_MONITOR_SEGMENT, HEADER = BLOCK_MONITOR_HEADER };
#endif

extern form_monitor monitor;

/* The chip's sizes. The starts are chosen freely: that of the heap a multiple of SEGMENT, that of the stack of 8, neither 0, areas apart. */
enum {
    HEAP_START = 0x1000,
    HEAP_SIZE = BLOCK_MONITOR_LARGEST_HEAP,
    STACK_START = 0x40000,
    STACK_SIZE = BLOCK_MONITOR_LARGEST_STACK
};

/* Before anything else: empty heap, empty stack. */
void areas_start(void);

/*
 * The address of a byte of either area; 0 for NULL; NOWHERE for any other pointer. No area holds these two, and they must differ: free of 0 is
 * accepted, and the release of a stray pointer must not be.
 */
enum { NOWHERE = 1 };
uint32_t address_of(const void *pointer);

/* The way back: the byte of either area that has this address; NULL for any other. A pointer that is kept in the areas is such an address. */
void *pointer_to(uint32_t address);

/*
 * Room on the heap. A program takes first_fit.c, which keeps a list of its own, or, but for the form with origins, placed.c, where the monitor
 * chooses. The base is a multiple of SEGMENT, and the HEADER bytes before it are no other block's. NULL if there is no room. The monitor is told of
 * the block next, with nothing between.
 */
void *heap_allocate(uint32_t length);

/* As C's free: of NULL it does nothing. The monitor is told before it. */
void heap_release(const void *pointer);

/* The heap's part of areas_start. */
void heap_start(void);

/* Automatic objects: the next length bytes, from a multiple of 4 on; popping one pops all that came after it. NULL if there is no room. */
void *stack_push(uint32_t length);
void stack_pop(const void *pointer);

/* Static objects, before any automatic one: zeroed bytes at the end of the stack area, from a multiple of 4 on. NULL if there is no room. */
void *static_object(uint32_t length);

/* A string literal, which lies with the static objects: the text with its final zero. NULL if there is no room. */
char *string_literal(const char *text);

#endif
