/* A malloc that refuses, for a program that is run under LD_PRELOAD (bench/refusals.py builds and uses it).
 *
 * REFUSE_AT=N      the N-th call that takes memory is refused, from 1
 * REFUSE_FROM=N    the N-th and all later ones are refused
 * REFUSE_OVER=B    only calls that want at least B bytes count
 * REFUSE_THREAD=N  the N-th start of a thread is refused, as where the system has no more
 * REFUSE_MARK=1    nothing counts before the signal SIGUSR1; each SIGUSR1 counts from 0 anew, and
 *                  SIGUSR2 ends the counting
 * REFUSE_NOTES=FD  each refusal writes one byte to this open file: 'm' for memory, 't' for a thread;
 *                  and each signal that was taken does: 's'
 *
 * Built by: cc -O2 -shared -fPIC -o refuse_malloc.so refuse_malloc.c */
#define _GNU_SOURCE
#include <dlfcn.h>
#include <errno.h>
#include <malloc.h>
#include <pthread.h>
#include <signal.h>
#include <stdatomic.h>
#include <stdlib.h>
#include <unistd.h>

extern void *__libc_malloc(size_t size);
extern void *__libc_calloc(size_t count, size_t size);
extern void *__libc_realloc(void *old, size_t size);
extern void *__libc_memalign(size_t align, size_t size);

static atomic_long calls, threads;
static atomic_int counts;
static long refuse_at, refuse_from, refuse_thread, notes = -1;
static size_t refuse_over;

static long number(const char *name, long otherwise) {
  const char *text = getenv(name);
  return text ? strtol(text, NULL, 10) : otherwise;
}

static void note(char sign) {
  int kept = errno;
  if (notes >= 0 && write((int)notes, &sign, 1) < 0) {
  }
  errno = kept;
}

static void on_mark(int sign) {
  calls = 0;
  counts = sign == SIGUSR1;
  note('s');
}

__attribute__((constructor)) static void begin(void) {
  refuse_at = number("REFUSE_AT", 0);
  refuse_from = number("REFUSE_FROM", 0);
  refuse_over = (size_t)number("REFUSE_OVER", 0);
  refuse_thread = number("REFUSE_THREAD", 0);
  notes = number("REFUSE_NOTES", -1);
  if (number("REFUSE_MARK", 0)) {
    struct sigaction action = {.sa_handler = on_mark, .sa_flags = SA_RESTART};
    sigaction(SIGUSR1, &action, NULL);
    sigaction(SIGUSR2, &action, NULL);
  } else {
    counts = 1;
  }
}

static int is_refused(size_t size) {
  if (!counts || size < refuse_over) return 0;
  long n = ++calls;
  if (n != refuse_at && !(refuse_from && n >= refuse_from)) return 0;
  note('m');
  errno = ENOMEM;
  return 1;
}

void *malloc(size_t size) { return is_refused(size) ? NULL : __libc_malloc(size); }

void *calloc(size_t count, size_t size) {
  return is_refused(count * size) ? NULL : __libc_calloc(count, size);
}

/* A block that grows counts; one that shrinks is never refused. */
void *realloc(void *old, size_t size) {
  int grows = !old || size > malloc_usable_size(old);
  return grows && is_refused(size) ? NULL : __libc_realloc(old, size);
}

void *memalign(size_t align, size_t size) {
  return is_refused(size) ? NULL : __libc_memalign(align, size);
}

void *aligned_alloc(size_t align, size_t size) { return memalign(align, size); }

int posix_memalign(void **out, size_t align, size_t size) {
  void *block = memalign(align, size);
  if (!block) return ENOMEM;
  *out = block;
  return 0;
}

int pthread_create(pthread_t *thread, const pthread_attr_t *attr, void *(*body)(void *), void *arg) {
  static int (*real)(pthread_t *, const pthread_attr_t *, void *(*)(void *), void *);
  if (!real) *(void **)&real = dlsym(RTLD_NEXT, "pthread_create");
  if (refuse_thread && ++threads == refuse_thread) {
    note('t');
    return EAGAIN;
  }
  return real(thread, attr, body, arg);
}
