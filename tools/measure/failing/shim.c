/* Makes the allocation of number FAIL_ALLOC fail, counted from 1; with COUNT_ALLOC it tells at the end how many there were. */
#define _GNU_SOURCE
#include <dlfcn.h>
#include <stdio.h>
#include <stdlib.h>
#include <sys/syscall.h>
#include <unistd.h>
static long calls, failing = -2;
static int fails(void) {
  if (failing == -2) { char *word = getenv("FAIL_ALLOC"); failing = word ? atol(word) : -1; }
  return __atomic_add_fetch(&calls, 1, __ATOMIC_RELAXED) == failing;
}
void *malloc(size_t size) {
  static void *(*real)(size_t);
  if (!real) real = dlsym(RTLD_NEXT, "malloc");
  return fails() ? NULL : real(size);
}
void *realloc(void *from, size_t size) {
  static void *(*real)(void *, size_t);
  if (!real) real = dlsym(RTLD_NEXT, "realloc");
  return fails() ? NULL : real(from, size);
}
int posix_memalign(void **to, size_t align, size_t size) {
  static int (*real)(void **, size_t, size_t);
  if (!real) real = dlsym(RTLD_NEXT, "posix_memalign");
  return fails() ? 12 : real(to, align, size);
}
/* The program ends by this call, so that no destructor runs. */
void _exit(int status) {
  char text[32];
  if (getenv("COUNT_ALLOC")) (void)!write(2, text, snprintf(text, sizeof text, "allocations %ld\n", calls));
  for (;;) syscall(SYS_exit_group, status);
}
