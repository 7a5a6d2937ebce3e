/* E-ACSL's runtime library as one unit, and its recording of a heap block without the allocator. */
#include "e_acsl_rtl.c"

void rtl_store_heap(void *p, size_t size);
void rtl_delete_heap(void *p);

#ifdef E_ACSL_SEGMENT_MMODEL

void rtl_store_heap(void *p, size_t size) {
  set_heap_segment(p, size, ALLOC_SIZE(size), 0, "malloc");
}

void rtl_delete_heap(void *p) { unset_heap_segment(p, 1, "free"); }

#else

void rtl_store_heap(void *p, size_t size) { store_freeable_block(p, size, 0); }

void rtl_delete_heap(void *p) { eacsl_delete_block(p); }

#endif
