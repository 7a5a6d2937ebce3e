/* All of the lesson's memory but the heap's allocator. The allocators here know nothing of the monitor, and run as they are with the checks taken out. */
#include "areas.h"

#include <string.h>

/* Objects of the lesson are made of characters and 32-bit numbers, so each may lie in such an area. The first member aligns it. */
static union {
    uint64_t alignment;
    uint32_t words[HEAP_SIZE / 4];
    uint8_t bytes[HEAP_SIZE];
} heap;

static union {
    uint64_t alignment;
    uint32_t words[STACK_SIZE / 4];
    uint8_t bytes[STACK_SIZE];
} stack;

static uint8_t heap_shadow[HEAP_SIZE];
static uint8_t primary_shadow[STACK_SIZE];
static uint8_t secondary_shadow[STACK_SIZE];

#ifdef ORIGINS
static uint8_t heap_cells[BLOCK_MONITOR_CELLS * HEAP_SIZE];
static uint8_t stack_cells[BLOCK_MONITOR_CELLS * STACK_SIZE];
#endif

form_monitor monitor = {
#ifdef ORIGINS
    .heap_cells = heap_cells,
    .heap_cells_length = sizeof heap_cells,
    .stack_cells = stack_cells,
    .stack_cells_length = sizeof stack_cells,
    .counter = 1,
#endif
    .map = {HEAP_START, HEAP_SIZE, STACK_START, STACK_SIZE},
    .heap = heap_shadow,
    .heap_length = sizeof heap_shadow,
    .primary = primary_shadow,
    .primary_length = sizeof primary_shadow,
    .secondary = secondary_shadow,
    .secondary_length = sizeof secondary_shadow,
};

/* Automatic objects lie below the first, static ones from the second on. */
static uint32_t stack_top;
static uint32_t statics;

void areas_start(void)
{
    heap_start();
    stack_top = 0;
    statics = STACK_SIZE;
}

uint32_t address_of(const void *pointer)
{
    uintptr_t byte = (uintptr_t)pointer;
    uintptr_t heap_byte = (uintptr_t)heap.bytes;
    uintptr_t stack_byte = (uintptr_t)stack.bytes;

    if (byte >= heap_byte && byte - heap_byte < HEAP_SIZE)
        return HEAP_START + (uint32_t)(byte - heap_byte);
    if (byte >= stack_byte && byte - stack_byte < STACK_SIZE)
        return STACK_START + (uint32_t)(byte - stack_byte);
    return pointer == NULL ? 0 : NOWHERE;
}

void *pointer_to(uint32_t address)
{
    if (address >= HEAP_START && address - HEAP_START < HEAP_SIZE)
        return &heap.bytes[address - HEAP_START];
    if (address >= STACK_START && address - STACK_START < STACK_SIZE)
        return &stack.bytes[address - STACK_START];
    return NULL;
}

void *stack_push(uint32_t length)
{
    uint32_t place = (stack_top + 3) / 4 * 4;

    if (place > statics || length > statics - place)
        return NULL;
    stack_top = place + length;
    return &stack.bytes[place];
}

void stack_pop(const void *pointer)
{
    stack_top = address_of(pointer) - STACK_START;
}

/* C has zeroed the area as a whole. */
void *static_object(uint32_t length)
{
    uint32_t place;

    if (length > statics)
        return NULL;
    place = (statics - length) / 4 * 4;
    if (place < stack_top)
        return NULL;
    statics = place;
    return &stack.bytes[place];
}

/* The compiler has put literals elsewhere. On the chip they are there when the program starts, so that this is no write of the program's. */
char *string_literal(const char *text)
{
    uint32_t length = (uint32_t)strlen(text) + 1;
    char *literal = static_object(length);

    return literal == NULL ? NULL : memcpy(literal, text, length);
}
