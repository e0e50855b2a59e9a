// Preloaded into the program, makes its allocation number FAIL fail, counted from 1, and says on file descriptor 9 whether it came to
// that. The program takes memory by malloc and realloc alone.
#define _GNU_SOURCE
#include <dlfcn.h>
#include <errno.h>
#include <stdlib.h>
#include <unistd.h>

static long number;

static int fails(void) {
  static long fail = -1;
  if (fail < 0) {
    const char *word = getenv("FAIL");
    fail = word ? atol(word) : 0;
  }
  number++;
  if (fail == 0 || number != fail)
    return 0;
  if (write(9, "failed\n", 7) != 7)
    _exit(99);
  errno = ENOMEM;
  return 1;
}

void *malloc(size_t size) {
  static void *(*real)(size_t);
  if (!real)
    real = dlsym(RTLD_NEXT, "malloc");
  return fails() ? 0 : real(size);
}

void *realloc(void *old, size_t size) {
  static void *(*real)(void *, size_t);
  if (!real)
    real = dlsym(RTLD_NEXT, "realloc");
  return fails() ? 0 : real(old, size);
}
