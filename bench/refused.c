/* Refuses one call for memory: the one whose number REFUSED_CALL says, counted from 1. At the end it writes to the file
   REFUSED_FILE how many calls there were. Loaded by LD_PRELOAD; `bench/refused.py` makes and uses it. */
#include <errno.h>
#include <stdio.h>
#include <stdlib.h>

extern void *__libc_malloc(size_t);
extern void *__libc_calloc(size_t, size_t);
extern void *__libc_realloc(void *, size_t);
extern void *__libc_memalign(size_t, size_t);

static long calls, refused, counting;

static int refuses(void) {
  if (!counting) return 0;
  calls++;
  if (calls != refused) return 0;
  errno = ENOMEM;
  return 1;
}

void *malloc(size_t size) { return refuses() ? NULL : __libc_malloc(size); }
void *calloc(size_t count, size_t size) { return refuses() ? NULL : __libc_calloc(count, size); }
void *realloc(void *old, size_t size) { return refuses() ? NULL : __libc_realloc(old, size); }
void *aligned_alloc(size_t alignment, size_t size) { return refuses() ? NULL : __libc_memalign(alignment, size); }
int posix_memalign(void **place, size_t alignment, size_t size) {
  if (refuses()) return ENOMEM;
  *place = __libc_memalign(alignment, size);
  return *place == NULL ? ENOMEM : 0;
}

__attribute__((constructor)) static void begin(void) {
  const char *number = getenv("REFUSED_CALL");
  refused = number ? atol(number) : 0;
  counting = 1;
}

__attribute__((destructor)) static void end(void) {
  const char *path = getenv("REFUSED_FILE");
  counting = 0;
  FILE *file = path ? fopen(path, "w") : NULL;
  if (file) {
    fprintf(file, "%ld\n", calls);
    fclose(file);
  }
}
