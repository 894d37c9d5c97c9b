// Loaded before the C library, it refuses one allocation of a program: that with the number in REFUSED, from 1, and none for 0.
// When the program ends it writes to the file named in COUNTED how many there were.
#define _GNU_SOURCE
#include <dlfcn.h>
#include <fcntl.h>
#include <stdatomic.h>
#include <stdio.h>
#include <stdlib.h>
#include <unistd.h>

static void *(*next_malloc)(size_t);
static void *(*next_realloc)(void *, size_t);
static atomic_ulong count;
static unsigned long refused;

static void find(void) {
    next_malloc = (void *(*)(size_t))dlsym(RTLD_NEXT, "malloc");
    next_realloc = (void *(*)(void *, size_t))dlsym(RTLD_NEXT, "realloc");
}

// What was allocated before the program begins is not counted.
__attribute__((constructor)) static void begin(void) {
    const char *number = getenv("REFUSED");
    find();
    refused = number ? strtoul(number, NULL, 10) : 0;
    atomic_store(&count, 0);
}

static int is_refused(void) { return atomic_fetch_add(&count, 1) + 1 == refused; }

void *malloc(size_t size) {
    if (!next_malloc) find();
    return is_refused() ? NULL : next_malloc(size);
}

void *realloc(void *old, size_t size) {
    if (!next_realloc) find();
    return is_refused() ? NULL : next_realloc(old, size);
}

// The program ends by this call. Nothing here allocates.
void _exit(int status) {
    char text[32];
    const char *name = getenv("COUNTED");
    int length = snprintf(text, sizeof text, "%lu", atomic_load(&count));
    int file = name ? open(name, O_WRONLY | O_CREAT | O_TRUNC, 0600) : -1;
    if (file >= 0 && write(file, text, (size_t)length) == length) close(file);
    ((void (*)(int))dlsym(RTLD_NEXT, "_exit"))(status);
    __builtin_unreachable();
}
