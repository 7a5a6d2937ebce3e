/* The functions begin and access of a build that had record, record_written and valid in their place; each costs a jump more than those. */
#include <stdbool.h>
#include <stddef.h>
#include <stdint.h>

uint32_t before_block_monitor_record(const uint32_t *, uint8_t *, size_t, uint8_t *, size_t, uint8_t *, size_t, uint32_t, uint32_t, uint32_t *);
uint32_t before_block_monitor_record_written(const uint32_t *, uint8_t *, size_t, uint8_t *, size_t, uint8_t *, size_t, uint32_t, uint32_t,
                                             uint32_t *);
uint32_t before_block_monitor_valid(const uint32_t *, const uint8_t *, size_t, const uint8_t *, size_t, const uint8_t *, size_t, uint32_t, uint32_t,
                                    uint32_t, uint32_t *);

uint32_t before_block_monitor_begin(const uint32_t *map, uint8_t *h, size_t hl, uint8_t *p, size_t pl, uint8_t *s, size_t sl, uint32_t base,
                                    uint32_t length, uint8_t how, uint32_t *fields)
{
    if (how == 0)
        return before_block_monitor_record(map, h, hl, p, pl, s, sl, base, length, fields);
    return before_block_monitor_record_written(map, h, hl, p, pl, s, sl, base, length, fields);
}

uint32_t before_block_monitor_access(const uint32_t *map, const uint8_t *h, size_t hl, const uint8_t *p, size_t pl, const uint8_t *s, size_t sl,
                                     uint32_t address, uint32_t n, uint32_t from, bool write, uint32_t *fields)
{
    (void)write;
    return before_block_monitor_valid(map, h, hl, p, pl, s, sl, address, n, from, fields);
}
