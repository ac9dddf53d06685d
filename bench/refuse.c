/* Refuses one request for memory of the program that it is loaded before, the REFUSE-th; 0 refuses none.
 * How many there were so far is kept in the file REFUSE_COUNT, as a number of this machine. */

#include <errno.h>
#include <fcntl.h>
#include <stdlib.h>
#include <sys/mman.h>
#include <unistd.h>

void *__libc_malloc(size_t), *__libc_calloc(size_t, size_t), *__libc_realloc(void *, size_t);

static unsigned long refused, unkept, *requests = &unkept;

__attribute__((constructor)) static void begin(void) {
  const char *number = getenv("REFUSE"), *path = getenv("REFUSE_COUNT");
  int file = path ? open(path, O_RDWR | O_CREAT | O_TRUNC, 0644) : -1;
  if (file >= 0 && ftruncate(file, sizeof *requests) == 0)
    requests = mmap(0, sizeof *requests, PROT_READ | PROT_WRITE, MAP_SHARED, file, 0);
  if (requests == MAP_FAILED) requests = &unkept;
  refused = number ? strtoul(number, 0, 10) : 0;
}

static int refuses(void) {
  return __atomic_add_fetch(requests, 1, __ATOMIC_SEQ_CST) == refused && (errno = ENOMEM);
}

void *malloc(size_t n) { return refuses() ? 0 : __libc_malloc(n); }
void *calloc(size_t n, size_t size) { return refuses() ? 0 : __libc_calloc(n, size); }
void *realloc(void *p, size_t n) { return refuses() ? 0 : __libc_realloc(p, n); }
