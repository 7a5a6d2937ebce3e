#include "checks.h"

#include <inttypes.h>
#include <stdio.h>
#include <stdlib.h>

#include "areas.h"

/* The last blocks that ended, for messages only: the monitor itself forgets a block when it ends. */
enum { REMEMBERED = 16 };

static struct ended {
    uint32_t base;
    uint32_t length;
    struct place where;
} ended[REMEMBERED];

static unsigned endings;

static void remember(struct block_monitor_block block, struct place where)
{
    struct ended *one = &ended[endings++ % REMEMBERED];

    one->base = block.base;
    one->length = block.length;
    one->where = where;
}

/* The block that held an address last, or NULL. */
static const struct ended *last_holder(uint32_t address)
{
    unsigned back;

    for (back = 1; back <= endings && back <= REMEMBERED; back++) {
        const struct ended *one = &ended[(endings - back) % REMEMBERED];
        if (address >= one->base && address - one->base < one->length)
            return one;
    }
    return NULL;
}

/* In words, the block that holds an address. 1 if there is one. */
static int print_block(uint32_t address)
{
    struct block_monitor_block block;
    const struct ended *gone = last_holder(address);

    if (FORM(ask)(&monitor, address, &block) == BLOCK_MONITOR_ACCEPTED) {
        printf("block (base 0x%" PRIx32 ", length %" PRIu32 ")", block.base, block.length);
        return 1;
    }
    if (gone != NULL)
        printf("no block since %s:%d, where block (base 0x%" PRIx32 ", length %" PRIu32 ") ended", gone->where.file, gone->where.line,
               gone->base, gone->length);
    else
        printf("no block");
    return 0;
}

/* How a line begins: where, and what was tried. */
static void print_use(const char *what, uint32_t n, uint32_t address, struct place where)
{
    printf("%s:%d: %s of %" PRIu32 " byte%s at 0x%" PRIx32 " stopped: ", where.file, where.line, what, n, n == 1 ? "" : "s", address);
}

static void print_call(const char *what, struct place where)
{
    printf("%s:%d: %s stopped: ", where.file, where.line, what);
}

static void stop(void)
{
    printf("\n");
    exit(EXIT_FAILURE);
}

static void stop_refused(uint32_t number)
{
    printf("refused by %" PRIu32 ", %s", number, monitor_words(number));
    stop();
}

/* Stops a use that is not valid, with the number of valid or valid_read. Where the bytes may be read, it was a write into a literal. */
static void stop_invalid(const char *what, uint32_t number, uint32_t address, uint32_t n, uint32_t from, struct place where)
{
    uint32_t readable, first_readable;

    print_use(what, n, address, where);
    if (number != BLOCK_MONITOR_ACCEPTED)
        stop_refused(number);
    FORM(valid_read)(&monitor, address, n, from, &readable);
    FORM(valid_read)(&monitor, address, 1, from, &first_readable);
    printf(readable ? "a literal may only be read, " : first_readable ? "runs past the end of " : "pointer into ");
    print_block(from);
    if (!first_readable && address != from) {
        printf(", address in ");
        print_block(address);
    }
    stop();
}

void check_start(struct place where)
{
    uint32_t number = FORM(clear)(&monitor);

    if (number == BLOCK_MONITOR_ACCEPTED)
        return;
    print_call("start", where);
    stop_refused(number);
}

/* Stops unless the number of a recording says accepted. */
static void must_be_recorded(uint32_t number, uint32_t base, uint32_t length, struct place where)
{
    if (number == BLOCK_MONITOR_ACCEPTED)
        return;
    print_use("record", length, base, where);
    stop_refused(number);
}

void check_record(const void *pointer, uint32_t length, struct place where)
{
    uint32_t base = address_of(pointer);

    must_be_recorded(FORM(record)(&monitor, base, length), base, length, where);
}

void check_static(const void *pointer, uint32_t length, struct place where)
{
    uint32_t base = address_of(pointer);

    must_be_recorded(FORM(record_written)(&monitor, base, length), base, length, where);
}

void check_literal(const void *pointer, uint32_t length, struct place where)
{
    uint32_t base = address_of(pointer);

    must_be_recorded(FORM(record_literal)(&monitor, base, length), base, length, where);
}

/* The block that holds an address, to be remembered when it has ended; no block has length 0. */
static struct block_monitor_block block_at(uint32_t address)
{
    struct block_monitor_block block;

    FORM(ask)(&monitor, address, &block);
    return block;
}

/* Stops unless the number of free or remove says accepted. block is what was there before, outside is 4 in words. */
static void must_be_ended(const char *what, uint32_t number, uint32_t address, struct block_monitor_block block, const char *outside,
                          struct place where)
{
    if (number == BLOCK_MONITOR_ACCEPTED) {
        if (block.length != 0) /* with NULL no block ends */
            remember(block, where);
        return;
    }
    print_call(what, where);
    if (number == BLOCK_MONITOR_OUTSIDE) {
        printf("%s", outside);
        stop();
    }
    printf("0x%" PRIx32 " is ", address);
    if (number != BLOCK_MONITOR_NO_BLOCK && number != BLOCK_MONITOR_NOT_HEAP)
        stop_refused(number);
    printf(number == BLOCK_MONITOR_NO_BLOCK && block.length != 0 ? "not the first byte of " : "in ");
    print_block(address);
    if (number == BLOCK_MONITOR_NOT_HEAP)
        printf(", but %s", monitor_words(number));
    stop();
}

void check_free(const void *pointer, struct place where)
{
    uint32_t address = address_of(pointer);
    struct block_monitor_block block = block_at(address);

    must_be_ended("release", FORM(free)(&monitor, address), address, block, "pointer into neither area", where);
}

void check_remove(const void *pointer, struct place where)
{
    uint32_t address = address_of(pointer);
    struct block_monitor_block block = block_at(address);

    must_be_ended("end", FORM(remove)(&monitor, address), address, block, "pointer outside the stack area", where);
}

void check_read(const void *pointer, uint32_t n, const void *from, struct place where)
{
    uint32_t address = address_of(pointer);
    uint32_t valid, written;
    uint32_t number = FORM(valid_read)(&monitor, address, n, address_of(from), &valid);

    if (!valid)
        stop_invalid("read", number, address, n, address_of(from), where);
    number = FORM(initialised)(&monitor, address, n, &written);
    if (written)
        return;
    print_use("read", n, address, where);
    if (number != BLOCK_MONITOR_ACCEPTED)
        stop_refused(number);
    printf("not written yet, in ");
    print_block(address);
    stop();
}

void check_write(const void *pointer, uint32_t n, const void *from, struct place where)
{
    uint32_t address = address_of(pointer);
    uint32_t valid;
    uint32_t number = FORM(valid)(&monitor, address, n, address_of(from), &valid);

    if (!valid)
        stop_invalid("write", number, address, n, address_of(from), where);
    number = FORM(written)(&monitor, address, n);
    if (number == BLOCK_MONITOR_ACCEPTED)
        return;
    print_use("write", n, address, where);
    stop_refused(number);
}

#ifdef ORIGINS
void check_keep(const void *cell, const void *pointer, struct place where)
{
    uint32_t number = monitor_origins_point(&monitor, address_of(cell), address_of(pointer));

    if (number == BLOCK_MONITOR_ACCEPTED)
        return;
    print_use("pointer", sizeof(uint32_t), address_of(cell), where);
    stop_refused(number);
}

void check_kept(const void *cell, const void *pointer, struct place where)
{
    uint32_t address = address_of(pointer);
    const struct ended *gone = last_holder(address);
    uint32_t live;
    uint32_t number = monitor_origins_live(&monitor, address_of(cell), address, &live);

    if (live)
        return;
    print_use("pointer", sizeof(uint32_t), address_of(cell), where);
    if (number != BLOCK_MONITOR_ACCEPTED)
        stop_refused(number);
    printf("0x%" PRIx32 " is not in the block that it was set to, but in ", address);
    if (print_block(address) && gone != NULL)
        printf("; block (base 0x%" PRIx32 ", length %" PRIu32 ") ended there at %s:%d", gone->base, gone->length, gone->where.file,
               gone->where.line);
    stop();
}
#else
void check_keep(const void *cell, const void *pointer, struct place where)
{
    (void)cell, (void)pointer, (void)where;
}

void check_kept(const void *cell, const void *pointer, struct place where)
{
    (void)cell, (void)pointer, (void)where;
}
#endif

void check_end(struct place where)
{
    struct block_monitor_totals totals;
    uint32_t number = FORM(audit)(&monitor, &totals);

    if (number != BLOCK_MONITOR_ACCEPTED) {
        print_call("audit", where);
        stop_refused(number);
    }
    printf("left at the end: %" PRIu32 " heap blocks, %" PRIu32 " stack blocks\n", totals.heap_blocks, totals.stack_blocks);
}
