/* Valgrind hides the vDSO, which E-ACSL's shadow model insists on: where there is none, a page stands in for it.
 * Linked with --wrap=getauxval. */
#define _GNU_SOURCE
#include <sys/auxv.h>
#include <sys/mman.h>

unsigned long __real_getauxval(unsigned long type);
unsigned long __wrap_getauxval(unsigned long type);

unsigned long __wrap_getauxval(unsigned long type) {
  unsigned long value = __real_getauxval(type);
  if (type != AT_SYSINFO_EHDR || value != 0)
    return value;
  /* Its own protection keeps it a mapping of its own. */
  void *page = mmap(0, 4096, PROT_READ | PROT_EXEC, MAP_PRIVATE | MAP_ANONYMOUS, -1, 0);
  return page == MAP_FAILED ? 0 : (unsigned long)page;
}
