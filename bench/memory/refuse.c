/* Refuses one allocation of a program, the one with the number REFUSED, counted from 1, and writes how many there
 * were to the file COUNTED. Loaded before the C library by run.sh. */
#define _GNU_SOURCE
#include <dlfcn.h>
#include <stdio.h>
#include <stdlib.h>

static long counted, refused;
static void *(*allocate)(size_t);
static void *(*resize)(void *, size_t);

static void prepare(void)
{
    if (allocate)
        return;
    const char *number = getenv("REFUSED");
    refused = number ? atol(number) : 0;
    resize = (void *(*)(void *, size_t))dlsym(RTLD_NEXT, "realloc");
    allocate = (void *(*)(size_t))dlsym(RTLD_NEXT, "malloc");
}

/* Counts from where the program begins. */
__attribute__((constructor)) static void begin(void)
{
    prepare();
    counted = 0;
}

void *malloc(size_t size)
{
    prepare();
    return ++counted == refused ? NULL : allocate(size);
}

void *realloc(void *old, size_t size)
{
    prepare();
    return ++counted == refused ? NULL : resize(old, size);
}

__attribute__((destructor)) static void end(void)
{
    const char *name = getenv("COUNTED");
    FILE *file = name ? fopen(name, "w") : NULL;
    if (file) {
        fprintf(file, "%ld\n", counted);
        fclose(file);
    }
}
