/* Loaded before the C library: counts the growths of memory that a program asks for, and refuses some of them.
 * REFUSE=N refuses the Nth, REFUSE_FROM=N it and all behind it; COUNT=FILE writes there how many were asked for. */
#define _GNU_SOURCE
#include <dlfcn.h>
#include <stdio.h>
#include <stdlib.h>

static unsigned long asked, refused, refused_from;
static void *(*real_malloc)(size_t);
static void *(*real_realloc)(void *, size_t);
static int is_ready;

__attribute__((constructor)) static void begin(void) {
  real_malloc = (void *(*)(size_t))dlsym(RTLD_NEXT, "malloc");
  real_realloc = (void *(*)(void *, size_t))dlsym(RTLD_NEXT, "realloc");
  const char *one = getenv("REFUSE"), *all = getenv("REFUSE_FROM");
  refused = one ? strtoul(one, NULL, 10) : 0;
  refused_from = all ? strtoul(all, NULL, 10) : 0;
  is_ready = 1;
}

__attribute__((destructor)) static void end(void) {
  const char *name = getenv("COUNT");
  is_ready = 0;
  if (name == NULL) return;
  FILE *file = fopen(name, "w");
  if (file == NULL) return;
  fprintf(file, "%lu\n", asked);
  fclose(file);
}

static int is_refused(void) {
  if (!is_ready) return 0;
  asked++;
  return asked == refused || (refused_from != 0 && asked >= refused_from);
}

void *malloc(size_t size) {
  if (!real_malloc) real_malloc = (void *(*)(size_t))dlsym(RTLD_NEXT, "malloc");
  return is_refused() ? NULL : real_malloc(size);
}

void *realloc(void *old, size_t size) {
  if (!real_realloc) real_realloc = (void *(*)(void *, size_t))dlsym(RTLD_NEXT, "realloc");
  return is_refused() ? NULL : real_realloc(old, size);
}
