// Preloaded into a program, refuses one of its allocations: the one whose number REFUSED says, counted from 1, or none.
// Where it does, it makes the file that MARK names.
#include <errno.h>
#include <fcntl.h>
#include <stdatomic.h>
#include <stdlib.h>
#include <unistd.h>

extern void *__libc_malloc(size_t size);
extern void *__libc_realloc(void *place, size_t size);

static atomic_long count;
static long refused;
static const char *mark;

static int is_refused(void) {
  if (atomic_fetch_add(&count, 1) + 1 != refused) return 0;
  close(open(mark, O_CREAT | O_WRONLY, 0600));
  errno = ENOMEM;
  return 1;
}

void *malloc(size_t size) { return is_refused() ? NULL : __libc_malloc(size); }

void *realloc(void *place, size_t size) { return is_refused() ? NULL : __libc_realloc(place, size); }

__attribute__((constructor)) static void start(void) {
  const char *number = getenv("REFUSED");
  mark = getenv("MARK");
  count = 0;
  refused = number && mark ? atol(number) : 0;
}
