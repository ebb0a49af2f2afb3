/* To be loaded before the C library (LD_PRELOAD): refuses the one allocation whose number, counted from 1 over the whole process, stands in REFUSE_NTH, and then makes the file that
   REFUSE_TOLD names. It is no part of the program; `tests/refused` builds and uses it. */
#define _GNU_SOURCE
#include <errno.h>
#include <fcntl.h>
#include <stdatomic.h>
#include <stdlib.h>
#include <unistd.h>

extern void *__libc_malloc(size_t);
extern void *__libc_calloc(size_t, size_t);
extern void *__libc_realloc(void *, size_t);
extern void *__libc_memalign(size_t, size_t);

static atomic_long count;
static long refused = -1;
static const char *told;

static int is_refused(void) {
  if (refused < 0) {
    const char *number = getenv("REFUSE_NTH");
    told = getenv("REFUSE_TOLD");
    refused = number ? atol(number) : 0;
  }
  if (atomic_fetch_add(&count, 1) + 1 != refused) return 0;
  if (told) close(open(told, O_CREAT | O_WRONLY, 0600));
  errno = ENOMEM;
  return 1;
}

void *malloc(size_t size) { return is_refused() ? 0 : __libc_malloc(size); }
void *calloc(size_t times, size_t size) { return is_refused() ? 0 : __libc_calloc(times, size); }
void *realloc(void *old, size_t size) { return is_refused() ? 0 : __libc_realloc(old, size); }
void *memalign(size_t align, size_t size) { return is_refused() ? 0 : __libc_memalign(align, size); }
void *aligned_alloc(size_t align, size_t size) { return is_refused() ? 0 : __libc_memalign(align, size); }

int posix_memalign(void **place, size_t align, size_t size) {
  if (is_refused()) return ENOMEM;
  void *found = __libc_memalign(align, size);
  if (!found) return ENOMEM;
  *place = found;
  return 0;
}
