/* Runs calls on E-ACSL's runtime library and tells their time. It is asked by lines on standard input, one answer line each:
 *   load FILE      forgets all blocks and makes the calls of the file
 *   case B T A     three files of calls: to make before, to time, to make afterwards
 *   run PASSES     nanoseconds of the middle one of so many passes, and the sum of the answers of the last
 * A file is a row of struct op. The heap arena is memory of E-ACSL's own heap, the stack arena memory of this program's stack. */
#define _GNU_SOURCE
#include <fcntl.h>
#include <stdint.h>
#include <stdio.h>
#include <string.h>
#include <sys/mman.h>
#include <time.h>
#include <unistd.h>

#include "rtl.h"

#define HEAP_ARENA (1u << 20)
#define STACK_ARENA (1u << 16)
#define MOST_OPS (1u << 15)
#define MOST_BLOCKS 4096u
#define MOST_PASSES 20001u

void *malloc(size_t size);

enum kind { RECORD = 2, FREE, WRITTEN, ASK, VALID, INITIALISED, RECORD_WRITTEN = 10, VALID_READ = 15, REMOVE };

struct op {
  uint32_t kind, heap, offset, n, from;
};

struct call {
  uint32_t kind, heap;
  char *p;
  size_t n;
  char *from;
};

struct list {
  size_t length;
  struct call calls[MOST_OPS];
};

static struct list setup, before, timed, after;
static char *heap_arena, *stack_arena;
static char *live[MOST_BLOCKS];
static int live_heap[MOST_BLOCKS];
static size_t live_count;

static void fail(const char *what) {
  char line[300];
  int n = snprintf(line, sizeof line, "server: %s\n", what);
  if (write(2, line, (size_t)n) < 0)
    _exit(3);
  _exit(2);
}

static void read_list(const char *path, struct list *list) {
  static struct op ops[MOST_OPS];
  int file = open(path, O_RDONLY);
  if (file < 0)
    fail(path);
  size_t got = 0;
  ssize_t part;
  while ((part = read(file, (char *)ops + got, sizeof ops - got)) > 0)
    got += (size_t)part;
  close(file);
  list->length = got / sizeof(struct op);
  for (size_t i = 0; i < list->length; i++) {
    char *arena = ops[i].heap ? heap_arena : stack_arena;
    list->calls[i] = (struct call){ops[i].kind, ops[i].heap, arena + ops[i].offset, ops[i].n, arena + ops[i].from};
  }
}

static void record(const struct call *c) {
  if (c->heap)
    rtl_store_heap(c->p, c->n);
  else
    __e_acsl_store_block(c->p, c->n);
}

/* A block that begins written takes two calls here. */
static void record_written(const struct call *c) {
  record(c);
  __e_acsl_initialize(c->p, c->n);
}

/* What ask tells takes four calls here. */
static uint64_t ask(const struct call *c) {
  size_t into = (size_t)(c->p - (char *)__e_acsl_base_addr(c->p));
  size_t length = __e_acsl_block_length(c->p);
  size_t offset = __e_acsl_offset(c->p);
  return into - offset + length + offset + (uint64_t)__e_acsl_initialized(c->p, 1);
}

static uint64_t any(const struct call *c) {
  switch (c->kind) {
  case RECORD:
    record(c);
    return 0;
  case RECORD_WRITTEN:
    record_written(c);
    return 0;
  case FREE:
    rtl_delete_heap(c->p);
    return 0;
  case REMOVE:
    __e_acsl_delete_block(c->p);
    return 0;
  case WRITTEN:
    __e_acsl_initialize(c->p, c->n);
    return 0;
  case ASK:
    return ask(c);
  case VALID:
    return (uint64_t)__e_acsl_valid(c->p, c->n, c->from, NULL);
  case VALID_READ:
    return (uint64_t)__e_acsl_valid_read(c->p, c->n, c->from, NULL);
  case INITIALISED:
    return (uint64_t)__e_acsl_initialized(c->p, c->n);
  }
  fail("unknown kind");
  return 0;
}

static int of_one_kind(const struct list *list) {
  for (size_t i = 1; i < list->length; i++)
    if (list->calls[i].kind != list->calls[0].kind || list->calls[i].heap != list->calls[0].heap)
      return 0;
  return list->length > 0;
}

#define EACH(statement)                                          \
  for (const struct call *c = list->calls, *end = c + list->length; c < end; c++) \
  statement

/* A list of one kind has its own loop, so that no dispatch is timed with it. */
__attribute__((noinline)) uint64_t bench_measured(const struct list *list, int uniform);
uint64_t bench_measured(const struct list *list, int uniform) {
  uint64_t sum = 0;
  if (!uniform) {
    EACH(sum += any(c);)
    return sum;
  }
  const int heap = (int)list->calls[0].heap;
  switch (list->calls[0].kind) {
  case RECORD:
    if (heap)
      EACH(rtl_store_heap(c->p, c->n);)
    else
      EACH(__e_acsl_store_block(c->p, c->n);)
    break;
  case RECORD_WRITTEN:
    EACH(record_written(c);)
    break;
  case FREE:
    EACH(rtl_delete_heap(c->p);)
    break;
  case REMOVE:
    EACH(__e_acsl_delete_block(c->p);)
    break;
  case WRITTEN:
    EACH(__e_acsl_initialize(c->p, c->n);)
    break;
  case ASK:
    EACH(sum += ask(c);)
    break;
  case VALID:
    EACH(sum += (uint64_t)__e_acsl_valid(c->p, c->n, c->from, NULL);)
    break;
  case VALID_READ:
    EACH(sum += (uint64_t)__e_acsl_valid_read(c->p, c->n, c->from, NULL);)
    break;
  case INITIALISED:
    EACH(sum += (uint64_t)__e_acsl_initialized(c->p, c->n);)
    break;
  }
  return sum;
}

static void make(const struct list *list) { EACH(any(c);) }

/* The blocks that a state leaves, so that the next state can forget them. */
static void load(const char *path) {
  for (size_t i = 0; i < live_count; i++)
    if (live_heap[i])
      rtl_delete_heap(live[i]);
    else
      __e_acsl_delete_block(live[i]);
  live_count = 0;
  read_list(path, &setup);
  make(&setup);
  for (size_t i = 0; i < setup.length; i++)
    if (setup.calls[i].kind == RECORD || setup.calls[i].kind == RECORD_WRITTEN) {
      if (live_count == MOST_BLOCKS)
        fail("too many blocks");
      live[live_count] = setup.calls[i].p;
      live_heap[live_count++] = (int)setup.calls[i].heap;
    }
}

static uint64_t now(void) {
  struct timespec t;
  clock_gettime(CLOCK_MONOTONIC, &t);
  return (uint64_t)t.tv_sec * 1000000000u + (uint64_t)t.tv_nsec;
}

static void answer(uint64_t time, uint64_t sum) {
  char line[64];
  int n = snprintf(line, sizeof line, "%llu %llu\n", (unsigned long long)time, (unsigned long long)sum);
  if (write(1, line, (size_t)n) != n)
    _exit(3);
}

/* Sorts in place: the library's own malloc is to see nothing of it. */
static void sort(uint64_t *values, size_t count) {
  for (size_t gap = count / 2; gap > 0; gap /= 2)
    for (size_t i = gap; i < count; i++) {
      uint64_t value = values[i];
      size_t j = i;
      for (; j >= gap && values[j - gap] > value; j -= gap)
        values[j] = values[j - gap];
      values[j] = value;
    }
}

static void run(unsigned long passes) {
  static uint64_t times[MOST_PASSES];
  uint64_t sum = 0;
  int uniform = of_one_kind(&timed);
  if (passes == 0 || passes > MOST_PASSES)
    fail("passes");
  for (unsigned long i = 0; i < passes; i++) {
    make(&before);
    uint64_t start = now();
    sum = bench_measured(&timed, uniform);
    times[i] = now() - start;
    make(&after);
  }
  sort(times, passes);
  answer(times[passes / 2], sum);
}

static int line(char *buffer, size_t size) {
  size_t n = 0;
  while (n + 1 < size && read(0, buffer + n, 1) == 1) {
    if (buffer[n] == '\n') {
      buffer[n] = 0;
      return 1;
    }
    n++;
  }
  return 0;
}

static void serve(void) {
  static char text[4096], b[1024], t[1024], a[1024];
  unsigned long passes;
  while (line(text, sizeof text)) {
    if (sscanf(text, "load %1023s", b) == 1) {
      load(b);
      answer(0, 0);
    } else if (sscanf(text, "case %1023s %1023s %1023s", b, t, a) == 3) {
      read_list(b, &before);
      read_list(t, &timed);
      read_list(a, &after);
      answer(0, 0);
    } else if (sscanf(text, "run %lu", &passes) == 1) {
      run(passes);
    } else {
      fail(text);
    }
  }
}

int main(int argc, char **argv) {
  char arena[STACK_ARENA + 64];
  __e_acsl_memory_init(&argc, &argv, sizeof(void *));
  memset(arena, 0, sizeof arena);
  stack_arena = (char *)(((uintptr_t)arena + 63) / 64 * 64);
  /* Memory of its heap, so that its shadow covers it; as a block it is forgotten at once. */
  char *memory = malloc(HEAP_ARENA + 64);
  rtl_delete_heap(memory);
  heap_arena = (char *)(((uintptr_t)memory + 63) / 64 * 64);
  serve();
  return 0;
}
