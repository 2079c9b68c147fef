/* Refuses the allocation whose number is FAIL_AT, of malloc and realloc; counts them if it is 0. */
#define _GNU_SOURCE
#include <dlfcn.h>
#include <stdio.h>
#include <stdlib.h>
#include <unistd.h>
static long count, fail_at;
static void *(*real_malloc)(size_t);
static void *(*real_realloc)(void *, size_t);
__attribute__((constructor)) static void begin(void) {
    const char *text = getenv("FAIL_AT");
    real_malloc = dlsym(RTLD_NEXT, "malloc");
    real_realloc = dlsym(RTLD_NEXT, "realloc");
    fail_at = text ? atol(text) : 0;
    count = 0;
}
static int is_refused(void) { return ++count == fail_at; }
void *malloc(size_t size) {
    if (!real_malloc) real_malloc = dlsym(RTLD_NEXT, "malloc");
    return is_refused() ? 0 : real_malloc(size);
}
void *realloc(void *old, size_t size) {
    if (!real_realloc) real_realloc = dlsym(RTLD_NEXT, "realloc");
    return is_refused() ? 0 : real_realloc(old, size);
}
__attribute__((destructor)) static void end(void) {
    char text[40];
    if (fail_at == 0) write(2, text, snprintf(text, sizeof text, "allocations %ld\n", count));
}
