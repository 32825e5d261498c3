// Preloaded into a program, refuses its request for memory of the number REFUSE, from 1, or none where that is 0, and counts its
// requests: those that the program makes itself, and not those of the C library. The counts stand in the file REFUSE_TELLS.
//
// cc -O2 -shared -fPIC -o refuse_memory.so refuse_memory.c

#define _GNU_SOURCE
#include <dlfcn.h>
#include <errno.h>
#include <fcntl.h>
#include <link.h>
#include <stdatomic.h>
#include <stdlib.h>
#include <sys/mman.h>
#include <unistd.h>

extern void *__libc_malloc(size_t);
extern void *__libc_realloc(void *, size_t);
extern void __libc_free(void *);

struct counts {
  atomic_long requests;     // for memory
  atomic_long before_read;  // of them before the first read, and one more; 0 where there was none
  atomic_long blocks;       // that were given out and did not come back
};

static struct counts unread, *counts = &unread;
static long refused;
static uintptr_t program_start, program_end;

static int find_program(struct dl_phdr_info *info, size_t size, void *data) {
  program_start = UINTPTR_MAX;
  for (int i = 0; i < info->dlpi_phnum; i++) {
    const ElfW(Phdr) *part = &info->dlpi_phdr[i];
    uintptr_t start = info->dlpi_addr + part->p_vaddr, end = start + part->p_memsz;
    if (part->p_type != PT_LOAD) continue;
    if (start < program_start) program_start = start;
    if (end > program_end) program_end = end;
  }
  return 1;  // the first one is the program
}

__attribute__((constructor)) static void begin(void) {
  dl_iterate_phdr(find_program, NULL);
  refused = atol(getenv("REFUSE"));
  int file = open(getenv("REFUSE_TELLS"), O_RDWR | O_CREAT | O_TRUNC, 0600);
  if (file < 0 || ftruncate(file, sizeof *counts) < 0) abort();
  void *shared = mmap(NULL, sizeof *counts, PROT_READ | PROT_WRITE, MAP_SHARED, file, 0);
  if (shared == MAP_FAILED) abort();
  close(file);
  counts = shared;
}

static int is_program(void *caller) { return program_start <= (uintptr_t)caller && (uintptr_t)caller < program_end; }

static int is_refused(void) {
  if (atomic_fetch_add(&counts->requests, 1) + 1 != refused) return 0;
  errno = ENOMEM;
  return 1;
}

static void *given(void *block) {
  if (block) atomic_fetch_add(&counts->blocks, 1);
  return block;
}

void *malloc(size_t size) {
  if (!is_program(__builtin_return_address(0))) return __libc_malloc(size);
  return is_refused() ? NULL : given(__libc_malloc(size));
}

void *realloc(void *block, size_t size) {
  if (!is_program(__builtin_return_address(0))) return __libc_realloc(block, size);
  if (is_refused()) return NULL;
  return block ? __libc_realloc(block, size) : given(__libc_realloc(block, size));
}

void free(void *block) {
  if (block && is_program(__builtin_return_address(0))) atomic_fetch_sub(&counts->blocks, 1);
  __libc_free(block);
}

static void note_read(void *caller) {
  long none = 0;
  if (is_program(caller)) atomic_compare_exchange_strong(&counts->before_read, &none, counts->requests + 1);
}

ssize_t read(int file, void *room, size_t size) {
  static ssize_t (*next)(int, void *, size_t);
  if (!next) next = dlsym(RTLD_NEXT, "read");
  note_read(__builtin_return_address(0));
  return next(file, room, size);
}

ssize_t recv(int file, void *room, size_t size, int flags) {
  static ssize_t (*next)(int, void *, size_t, int);
  if (!next) next = dlsym(RTLD_NEXT, "recv");
  note_read(__builtin_return_address(0));
  return next(file, room, size, flags);
}
