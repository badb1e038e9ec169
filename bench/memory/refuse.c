// Refuses the call of malloc, calloc or realloc whose number is in REFUSE_AT, counted from 1, and, where REFUSE_ALL is set, all after it.
// At its end it writes the number of calls to the file REFUSE_COUNT, where that is set.
#define _GNU_SOURCE
#include <dlfcn.h>
#include <stdio.h>
#include <stdlib.h>

static unsigned long calls, at, all;
static const char *count_file;
static void *(*real_malloc)(size_t);
static void *(*real_calloc)(size_t, size_t);
static void *(*real_realloc)(void *, size_t);
static int counts;

__attribute__((constructor)) static void begin(void) {
    real_malloc = dlsym(RTLD_NEXT, "malloc");
    real_calloc = dlsym(RTLD_NEXT, "calloc");
    real_realloc = dlsym(RTLD_NEXT, "realloc");
    const char *word = getenv("REFUSE_AT");
    at = word ? strtoul(word, NULL, 10) : 0;
    all = getenv("REFUSE_ALL") != NULL;
    count_file = getenv("REFUSE_COUNT");
    counts = 1;
}

__attribute__((destructor)) static void end(void) {
    counts = 0;
    FILE *file = count_file ? fopen(count_file, "w") : NULL;
    if (file) {
        fprintf(file, "%lu\n", calls);
        fclose(file);
    }
}

static int is_refused(void) {
    if (!counts) return 0;
    calls += 1;
    return at != 0 && (calls == at || (all && calls > at));
}

void *malloc(size_t size) {
    if (is_refused()) return NULL;
    if (!real_malloc) real_malloc = dlsym(RTLD_NEXT, "malloc");
    return real_malloc(size);
}

void *realloc(void *old, size_t size) {
    if (is_refused()) return NULL;
    if (!real_realloc) real_realloc = dlsym(RTLD_NEXT, "realloc");
    return real_realloc(old, size);
}

void *calloc(size_t count, size_t size) {
    if (!real_calloc) return NULL;
    if (is_refused()) return NULL;
    return real_calloc(count, size);
}
