/* place in C, with the checks and the scan of the proved one, eight bytes at a time: what that is measured beside. */
#include <stdbool.h>
#include <stddef.h>
#include <stdint.h>
#include <string.h>

enum { SEGMENT = 8, SMALLEST = 16, LARGEST_HEAP = 131072, LARGEST_STACK = 65536 };

static bool good_area(uint32_t start, uint32_t size, uint32_t largest)
{
    return start % SEGMENT == 0 && size % SEGMENT == 0 && start >= SEGMENT && size >= SMALLEST && size <= largest && size <= UINT32_MAX - start;
}

static bool good_map(const uint32_t map[4])
{
    return good_area(map[0], map[1], LARGEST_HEAP) && good_area(map[2], map[3], LARGEST_STACK) &&
           (map[0] + map[1] <= map[2] || map[2] + map[3] <= map[0]);
}

/* How many gaps were looked at, and which is chosen: where it begins, and its bytes, 0 where none fits. And the free bytes right before the pass. */
struct scan {
    uint32_t looked;
    size_t start;
    size_t bytes;
    size_t run;
};

/* The free segments end here: if there are some, and the budget is not used up, they are a gap that is looked at. */
static void ended(struct scan *scan, size_t at, uint64_t need, uint32_t budget)
{
    size_t run = scan->run;

    scan->run = 0;
    if (run == 0 || scan->looked == budget)
        return;
    scan->looked++;
    if (need <= run && (scan->bytes == 0 || run < scan->bytes)) {
        scan->start = at - run;
        scan->bytes = run;
    }
}

static uint64_t eight_at(const uint8_t *heap, size_t at)
{
    uint64_t segment;

    memcpy(&segment, heap + at, SEGMENT);
    return segment;
}

static void turn(struct scan *scan, size_t at, uint64_t segment, uint64_t need, uint32_t budget)
{
    if (segment == 0)
        scan->run += SEGMENT;
    else
        ended(scan, at, need, budget);
}

/* Four segments at once where all are free, or none is and no gap is open; else one by one. */
static void four(struct scan *scan, const uint8_t *heap, size_t at, uint64_t need, uint32_t budget)
{
    uint64_t a = eight_at(heap, at), b = eight_at(heap, at + 8), c = eight_at(heap, at + 16), d = eight_at(heap, at + 24);

    if ((a | b | c | d) == 0) {
        scan->run += 4 * SEGMENT;
    } else if (!((scan->run == 0) & (a != 0) & (b != 0) & (c != 0) & (d != 0))) {
        turn(scan, at, a, need, budget);
        turn(scan, at + 8, b, need, budget);
        turn(scan, at + 16, c, need, budget);
        turn(scan, at + 24, d, need, budget);
    }
}

static struct scan choose(const uint8_t *heap, size_t heap_length, uint64_t need, uint32_t budget)
{
    struct scan scan = {0, 0, 0, 0};
    size_t at = 0;

    for (; at + 4 * SEGMENT <= heap_length; at += 4 * SEGMENT) {
        if (scan.looked == budget)
            return scan;
        four(&scan, heap, at, need, budget);
    }
    for (; at + SEGMENT <= heap_length; at += SEGMENT)
        turn(&scan, at, eight_at(heap, at), need, budget);
    ended(&scan, at, need, budget);
    return scan;
}

uint32_t bench_c_place(const uint32_t map[4], const uint8_t *heap, size_t heap_length, const uint8_t *primary, size_t primary_length,
                       const uint8_t *secondary, size_t secondary_length, uint32_t length, uint32_t budget, uint32_t fields[4])
{
    uint64_t need = SEGMENT + ((uint64_t)length + SEGMENT - 1) / SEGMENT * SEGMENT;
    struct scan scan;

    (void)primary, (void)secondary;
    memset(fields, 0, 4 * sizeof *fields);
    if (!good_map(map))
        return 1;
    if (heap_length != map[1] || primary_length != map[3] || secondary_length != map[3])
        return 2;
    if (length == 0)
        return 3;
    scan = choose(heap, heap_length, need, budget);
    if (scan.bytes == 0)
        return 14;
    fields[0] = map[0] + (uint32_t)scan.start + SEGMENT;
    fields[1] = scan.looked;
    fields[2] = (uint32_t)(scan.bytes - need);
    return 0;
}
