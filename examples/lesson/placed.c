/*
 * The heap's allocator where the monitor chooses: it keeps nothing of its own, since what the monitor was told of every block is all it needs. So the
 * checks cannot be taken out: a block is taken when CHECK_RECORD has told of it, and its room is free when CHECK_FREE has. The form with origins
 * chooses no places.
 */
#include "areas.h"

void heap_start(void)
{
}

/* Of all gaps the smallest that fits. */
void *heap_allocate(uint32_t length)
{
    struct block_monitor_room room;
    uint32_t number = FORM(place)(&monitor, length, UINT32_MAX, &room);

    return number == BLOCK_MONITOR_ACCEPTED ? pointer_to(room.base) : NULL;
}

void heap_release(const void *pointer)
{
    (void)pointer;
}
