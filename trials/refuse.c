/* Refuses the request for memory of number REFUSE, counted from 1, and with REFUSE_ON set all later ones. At the end it
   writes to the file COUNT how many there were. */
#define _GNU_SOURCE
#include <dlfcn.h>
#include <errno.h>
#include <stdio.h>
#include <stdlib.h>

static unsigned long seen;
static unsigned long refuse;
static int on;
static int known;

static void know(void) {
    if (known)
        return;
    known = 1;
    const char *text = getenv("REFUSE");
    refuse = text ? strtoul(text, 0, 10) : 0;
    on = getenv("REFUSE_ON") != 0;
}

static int is_refused(void) {
    know();
    seen++;
    return refuse && (seen == refuse || (on && seen > refuse));
}

void *malloc(size_t size) {
    static void *(*real)(size_t);
    if (!real)
        real = (void *(*)(size_t))dlsym(RTLD_NEXT, "malloc");
    if (is_refused()) {
        errno = ENOMEM;
        return 0;
    }
    return real(size);
}

void *realloc(void *old, size_t size) {
    static void *(*real)(void *, size_t);
    if (!real)
        real = (void *(*)(void *, size_t))dlsym(RTLD_NEXT, "realloc");
    if (is_refused()) {
        errno = ENOMEM;
        return 0;
    }
    return real(old, size);
}

__attribute__((destructor)) static void tell(void) {
    unsigned long count = seen;
    const char *name = getenv("COUNT");
    refuse = 0;
    if (!name)
        return;
    FILE *file = fopen(name, "w");
    if (!file)
        return;
    fprintf(file, "%lu\n", count);
    fclose(file);
}
