/*
 * The checks that stand in the lesson at every allocation, release and pointer use. Each asks the monitor; where the answer is no, it prints
 * one line (source line, what was tried, address, block) and ends the program before the use happens.
 *
 * from is the pointer that the used one was worked out from, as points in &points[i]: both must lie in one block.
 */
#ifndef CHECKS_H
#define CHECKS_H

#include <stdint.h>

struct place {
    const char *file;
    int line;
};

#define HERE ((struct place){__FILE__, __LINE__})

/* Before all others. */
#define CHECK_START() check_start(HERE)

/* After an allocation, and where an automatic object begins. */
#define CHECK_RECORD(pointer, length) check_record(pointer, length, HERE)

/* Before a static object is first used: C has zeroed it, so that it may be read at once. */
#define CHECK_STATIC(pointer, length) check_static(pointer, length, HERE)

/* Before a string literal is first used: it may be read at once, and never written to. */
#define CHECK_LITERAL(pointer, length) check_literal(pointer, length, HERE)

/* Before a heap block is given back; a pointer that is NULL passes, as it does with C's free. One to the stack area does not. */
#define CHECK_FREE(pointer) check_free(pointer, HERE)

/* Where an automatic object ends; for a static one and a literal, at the end of the program. All of them lie in the stack area. */
#define CHECK_REMOVE(pointer) check_remove(pointer, HERE)

/* Before a read of n bytes. */
#define CHECK_READ(pointer, n, from) check_read(pointer, n, from, HERE)

/* Before a write of n bytes, which count as written from then on. They must not be a literal's. */
#define CHECK_WRITE(pointer, n, from) check_write(pointer, n, from, HERE)

/*
 * For a pointer that is kept in lent memory, four bytes that hold an address: where it is set, after the write; and before it is used, after the
 * read of it. Without origins the monitor knows nothing of the allocation that a pointer was set to: there neither stops anything.
 */
#define CHECK_KEEP(cell, pointer) check_keep(cell, pointer, HERE)
#define CHECK_KEPT(cell, pointer) check_kept(cell, pointer, HERE)

/* After all others: prints how many blocks were not released. */
#define CHECK_END() check_end(HERE)

void check_start(struct place where);
void check_record(const void *pointer, uint32_t length, struct place where);
void check_static(const void *pointer, uint32_t length, struct place where);
void check_literal(const void *pointer, uint32_t length, struct place where);
void check_free(const void *pointer, struct place where);
void check_remove(const void *pointer, struct place where);
void check_read(const void *pointer, uint32_t n, const void *from, struct place where);
void check_write(const void *pointer, uint32_t n, const void *from, struct place where);
void check_keep(const void *cell, const void *pointer, struct place where);
void check_kept(const void *cell, const void *pointer, struct place where);
void check_end(struct place where);

#endif
