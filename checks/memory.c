// Makes one call for memory fail: with REFUSE=N the N-th call of malloc or realloc in the process returns a null pointer. With REFUSE=0 none fails.
// The number of calls goes to the file that COUNT names, when the process ends. checks/memory.sh loads it before the C library.
#define _GNU_SOURCE
#include <dlfcn.h>
#include <stdio.h>
#include <stdlib.h>

static long calls, refuse = -1;

static int is_refused(void) {
    if (refuse < 0) {
        const char *it = getenv("REFUSE");
        refuse = it ? atol(it) : 0;
    }
    return ++calls == refuse;
}

void *malloc(size_t size) {
    static void *(*real)(size_t);
    if (!real) real = (void *(*)(size_t))dlsym(RTLD_NEXT, "malloc");
    return is_refused() ? NULL : real(size);
}

void *realloc(void *old, size_t size) {
    static void *(*real)(void *, size_t);
    if (!real) real = (void *(*)(void *, size_t))dlsym(RTLD_NEXT, "realloc");
    return is_refused() ? NULL : real(old, size);
}

__attribute__((destructor)) static void write_count(void) {
    const char *name = getenv("COUNT");
    long all = calls;
    FILE *to = name ? fopen(name, "w") : NULL;
    if (to) {
        fprintf(to, "%ld\n", all);
        fclose(to);
    }
}
