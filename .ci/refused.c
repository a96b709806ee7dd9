/* For a preload: refuses one request for memory of a program, and tells at each of its writes how many blocks it holds.
   Requests are counted from the first write to the second, and the one of the number in REFUSE is refused. */
#define _GNU_SOURCE
#include <errno.h>
#include <stddef.h>
#include <stdio.h>
#include <stdlib.h>
#include <sys/syscall.h>
#include <unistd.h>

extern void *__libc_malloc(size_t), *__libc_calloc(size_t, size_t), *__libc_realloc(void *, size_t);
extern void *__libc_memalign(size_t, size_t);
extern void __libc_free(void *);

static long held, asked, writes;

static int refused(void) {
  if (writes != 1) return 0;
  asked++;
  const char *number = getenv("REFUSE");
  if (!number || asked != atol(number)) return 0;
  errno = ENOMEM;
  return 1;
}

static void *counted(void *block) {
  if (block) held++;
  return block;
}

void *malloc(size_t size) { return refused() ? NULL : counted(__libc_malloc(size)); }
void *calloc(size_t count, size_t size) { return refused() ? NULL : counted(__libc_calloc(count, size)); }
void *memalign(size_t align, size_t size) { return refused() ? NULL : counted(__libc_memalign(align, size)); }
void *aligned_alloc(size_t align, size_t size) { return memalign(align, size); }

int posix_memalign(void **place, size_t align, size_t size) {
  void *block = memalign(align, size);
  if (!block) return ENOMEM;
  *place = block;
  return 0;
}

void *realloc(void *block, size_t size) {
  if (refused()) return NULL;
  if (!block) return counted(__libc_realloc(block, size));
  if (!size) held--;
  return __libc_realloc(block, size);
}

void free(void *block) {
  if (block) held--;
  __libc_free(block);
}

ssize_t write(int file, const void *bytes, size_t count) {
  if (file == 1) {
    char line[64];
    writes++;
    int length = snprintf(line, sizeof line, "held %ld asked %ld\n", held, asked);
    syscall(SYS_write, 2, line, (size_t)length);
  }
  return syscall(SYS_write, file, bytes, count);
}
