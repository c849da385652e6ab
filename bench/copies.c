// Loaded into a program (LD_PRELOAD) it sums up the bytes that the program copies by memcpy and memmove, of calls with at least COPIES
// bytes, and writes the sum to standard error at the end.
#define _GNU_SOURCE
#include <stdio.h>
#include <stdlib.h>
#include <string.h>

static size_t least;
static unsigned long copied;

__attribute__((constructor)) static void begin(void) {
  const char *number = getenv("COPIES");
  least = number ? strtoul(number, 0, 10) : 1;
}

__attribute__((destructor)) static void end(void) {
  fprintf(stderr, "%lu\n", copied);
}

// By the byte, so that the compiler doesn't make it a call of itself.
__attribute__((optimize("no-tree-loop-distribute-patterns"))) void *memmove(void *to, const void *from, size_t size) {
  char *target = to;
  const char *source = from;
  if (size >= least)
    copied += size;
  if (target < source)
    for (size_t i = 0; i < size; i++)
      target[i] = source[i];
  else
    for (size_t i = size; i > 0; i--)
      target[i - 1] = source[i - 1];
  return to;
}

__attribute__((optimize("no-tree-loop-distribute-patterns"))) void *memcpy(void *to, const void *from, size_t size) {
  return memmove(to, from, size);
}
