/* What the server calls of E-ACSL's runtime library. Prototypes as in its e_acsl.h, and two of rtl.c. */
#ifndef RTL_H
#define RTL_H

#include <stddef.h>

void __e_acsl_memory_init(int *argc, char ***argv, size_t pointer_size);
void *__e_acsl_store_block(void *p, size_t size);
void __e_acsl_delete_block(void *p);
void __e_acsl_initialize(void *p, size_t n);
int __e_acsl_valid(void *p, size_t n, void *base, void *base_address);
int __e_acsl_valid_read(void *p, size_t n, void *base, void *base_address);
int __e_acsl_initialized(void *p, size_t n);
void *__e_acsl_base_addr(void *p);
size_t __e_acsl_block_length(void *p);
size_t __e_acsl_offset(void *p);

/* Heap blocks: what its malloc and free do beside allocating. */
void rtl_store_heap(void *p, size_t size);
void rtl_delete_heap(void *p);

#endif
