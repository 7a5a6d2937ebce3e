/* The heap's own allocator, first fit. It knows nothing of the monitor: with the checks taken out, the lesson runs as it is. */
#include "areas.h"

/* The heap is a row of units, each a header, of which two words are used, and the room behind it. The monitor leaves the same bytes to the header. */
struct unit {
    uint32_t size; /* header and room, a multiple of SEGMENT */
    uint32_t taken;
};

static struct unit unit_at(uint32_t place)
{
    const uint32_t *words = pointer_to(HEAP_START + place);
    struct unit unit = {words[0], words[1]};
    return unit;
}

static void put_unit(uint32_t place, uint32_t size, uint32_t taken)
{
    uint32_t *words = pointer_to(HEAP_START + place);

    words[0] = size;
    words[1] = taken;
}

void heap_start(void)
{
    put_unit(0, HEAP_SIZE, 0);
}

/* The bytes of the free unit at a place and of the free units right behind it. */
static uint32_t free_run(uint32_t place)
{
    uint32_t end = place;

    while (end < HEAP_SIZE && !unit_at(end).taken)
        end += unit_at(end).size;
    return end - place;
}

void *heap_allocate(uint32_t length)
{
    uint32_t place, room, need;

    if (length == 0 || length > HEAP_SIZE - HEADER)
        return NULL;
    need = HEADER + (length + SEGMENT - 1) / SEGMENT * SEGMENT;
    for (place = 0; place < HEAP_SIZE; place += unit_at(place).size) {
        if (unit_at(place).taken)
            continue;
        room = free_run(place);
        put_unit(place, room, 0);
        if (room < need)
            continue;
        if (room > need)
            put_unit(place + need, room - need, 0);
        put_unit(place, need, 1);
        return pointer_to(HEAP_START + place + HEADER);
    }
    return NULL;
}

void heap_release(const void *pointer)
{
    uint32_t place;

    if (pointer == NULL)
        return;
    place = address_of(pointer) - HEAP_START - HEADER;
    put_unit(place, unit_at(place).size, 0);
}
