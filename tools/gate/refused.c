/* A library that is loaded before a program, and refuses allocations of it by their numbers, from 1.

   REFUSED=N            the allocation of number N is refused
   REFUSED_FROM=N       it is, and so is each one behind it
   COUNTED=PATH         how many there were is written there when the program ends

   tools/gate/allocations.py compiles and loads it. */
#include <errno.h>
#include <stdio.h>
#include <stdlib.h>

extern void *__libc_malloc(size_t size);
extern void *__libc_calloc(size_t count, size_t size);
extern void *__libc_realloc(void *old, size_t size);
extern void *__libc_memalign(size_t alignment, size_t size);

static unsigned long made, refused, refused_from;

static unsigned long number_in(const char *name) {
    const char *text = getenv(name);
    return text ? strtoul(text, NULL, 10) : 0;
}

__attribute__((constructor)) static void begin(void) {
    refused = number_in("REFUSED");
    refused_from = number_in("REFUSED_FROM");
    made = 0;
}

__attribute__((destructor)) static void end(void) {
    const char *path = getenv("COUNTED");
    unsigned long count = made;
    refused = refused_from = 0;
    FILE *file = path ? fopen(path, "w") : NULL;
    if (file) {
        fprintf(file, "%lu", count);
        fclose(file);
    }
}

static int is_refused(void) {
    made++;
    if (made == refused || (refused_from && made >= refused_from)) {
        errno = ENOMEM;
        return 1;
    }
    return 0;
}

void *malloc(size_t size) { return is_refused() ? NULL : __libc_malloc(size); }

void *calloc(size_t count, size_t size) { return is_refused() ? NULL : __libc_calloc(count, size); }

void *realloc(void *old, size_t size) { return is_refused() ? NULL : __libc_realloc(old, size); }

void *memalign(size_t alignment, size_t size) { return is_refused() ? NULL : __libc_memalign(alignment, size); }

void *aligned_alloc(size_t alignment, size_t size) { return memalign(alignment, size); }

int posix_memalign(void **found, size_t alignment, size_t size) {
    void *made_there = memalign(alignment, size);
    if (!made_there) {
        return ENOMEM;
    }
    *found = made_there;
    return 0;
}
