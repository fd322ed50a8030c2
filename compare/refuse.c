/* Loaded before the C library: the request for memory that REFUSE numbers, counted from 1, is refused, and how many there
   were is written to the file that COUNTED names. Without REFUSE none is. */
#include <errno.h>
#include <fcntl.h>
#include <stddef.h>
#include <stdlib.h>
#include <unistd.h>

void *__libc_malloc(size_t);
void *__libc_realloc(void *, size_t);

static long requests;

static int refused(void) {
  const char *word = getenv("REFUSE");
  requests++;
  if (!word || atol(word) != requests) return 0;
  errno = ENOMEM;
  return 1;
}

void *malloc(size_t size) { return refused() ? NULL : __libc_malloc(size); }

void *realloc(void *old, size_t size) { return refused() ? NULL : __libc_realloc(old, size); }

__attribute__((destructor)) static void tell(void) {
  const char *name = getenv("COUNTED");
  char text[24];
  int at = sizeof text, file;
  if (!name || (file = open(name, O_WRONLY | O_CREAT | O_TRUNC, 0600)) < 0) return;
  text[--at] = '\n';
  for (long n = requests; at == sizeof text - 1 || n; n /= 10) text[--at] = (char)('0' + n % 10);
  if (write(file, text + at, sizeof text - at) < 0) return;
  close(file);
}
