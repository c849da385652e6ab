// Loaded into a program (LD_PRELOAD) it refuses that one allocation: REFUSE says which, counted from 1. Only calls of malloc and
// realloc that the program itself makes are counted, and not those of the C library. With REFUSE=0 none is refused, and how
// many there were is written to standard error at the end.
#define _GNU_SOURCE
#include <link.h>
#include <stdio.h>
#include <stdlib.h>

extern void *__libc_malloc(size_t);
extern void *__libc_realloc(void *, size_t);

static ElfW(Addr) first, last;
static unsigned long refused, count;

// The program's own code: it is the first of what is loaded.
static int find_code(struct dl_phdr_info *info, size_t size, void *data) {
  (void)size, (void)data;
  for (int i = 0; i < info->dlpi_phnum; i++) {
    const ElfW(Phdr) *part = &info->dlpi_phdr[i];
    if (part->p_type == PT_LOAD && (part->p_flags & PF_X)) {
      first = info->dlpi_addr + part->p_vaddr;
      last = first + part->p_memsz;
    }
  }
  return 1;
}

__attribute__((constructor)) static void begin(void) {
  const char *number = getenv("REFUSE");
  refused = number ? strtoul(number, 0, 10) : 0;
  dl_iterate_phdr(find_code, 0);
}

__attribute__((destructor)) static void end(void) {
  if (refused == 0)
    fprintf(stderr, "%lu\n", count);
}

static int is_refused(void *caller) {
  ElfW(Addr) at = (ElfW(Addr))caller;
  return first <= at && at < last && ++count == refused;
}

void *malloc(size_t size) {
  return is_refused(__builtin_return_address(0)) ? 0 : __libc_malloc(size);
}

void *realloc(void *old, size_t size) {
  return is_refused(__builtin_return_address(0)) ? 0 : __libc_realloc(old, size);
}
