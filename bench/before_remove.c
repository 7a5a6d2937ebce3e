/* The function remove of a build whose free took the blocks of both areas; it costs a jump more than that. */
#include <stddef.h>
#include <stdint.h>

uint32_t before_block_monitor_free(const uint32_t *, uint8_t *, size_t, uint8_t *, size_t, uint8_t *, size_t, uint32_t, uint32_t *);

uint32_t before_block_monitor_remove(const uint32_t *map, uint8_t *h, size_t hl, uint8_t *p, size_t pl, uint8_t *s, size_t sl, uint32_t base,
                                     uint32_t *fields)
{
    return before_block_monitor_free(map, h, hl, p, pl, s, sl, base, fields);
}
