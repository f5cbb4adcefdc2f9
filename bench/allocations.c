/* Counts how often a program asks for memory: preload it, and at the program's end the number stands in the file that
 * $ALLOCATIONS names, with the greatest resident size in kB on the next line. The request whose number from 1 is $REFUSED gets no
 * memory. */
#define _GNU_SOURCE
#include <dlfcn.h>
#include <errno.h>
#include <stdio.h>
#include <stdlib.h>
#include <string.h>

static unsigned long calls;
static unsigned long refused;
static void *(*next_malloc)(size_t);
static void *(*next_realloc)(void *, size_t);
static void *(*next_aligned)(size_t, size_t);
static int (*next_posix)(void **, size_t, size_t);

static void *find(const char *name) {
    void *found = dlsym(RTLD_NEXT, name);
    if (!found)
        abort();
    return found;
}

__attribute__((constructor)) static void begin(void) {
    next_malloc = find("malloc");
    next_realloc = find("realloc");
    next_aligned = find("aligned_alloc");
    next_posix = find("posix_memalign");
    const char *number = getenv("REFUSED");
    refused = number ? strtoul(number, NULL, 10) : 0;
    calls = 0;
}

/* Counts a request, and tells whether it gets no memory. */
static int is_refused(void) {
    calls++;
    if (calls != refused)
        return 0;
    errno = ENOMEM;
    return 1;
}

void *malloc(size_t size) {
    if (is_refused())
        return NULL;
    return next_malloc ? next_malloc(size) : ((void *(*)(size_t))find("malloc"))(size);
}

void *realloc(void *old, size_t size) {
    if (is_refused())
        return NULL;
    return next_realloc ? next_realloc(old, size) : ((void *(*)(void *, size_t))find("realloc"))(old, size);
}

void *aligned_alloc(size_t align, size_t size) {
    if (is_refused())
        return NULL;
    return next_aligned(align, size);
}

int posix_memalign(void **out, size_t align, size_t size) {
    if (is_refused())
        return ENOMEM;
    return next_posix(out, align, size);
}

/* The greatest resident size of the program alone: what started it is not counted, as it is in getrusage. */
static unsigned long peak(void) {
    char line[256];
    unsigned long found = 0;
    FILE *status = fopen("/proc/self/status", "r");
    while (status && fgets(line, sizeof line, status))
        if (strncmp(line, "VmHWM:", 6) == 0)
            found = strtoul(line + 6, NULL, 10);
    if (status)
        fclose(status);
    return found;
}

__attribute__((destructor)) static void end(void) {
    const char *path = getenv("ALLOCATIONS");
    unsigned long counted = calls;
    unsigned long most = peak();
    refused = 0;
    FILE *file = path ? fopen(path, "w") : NULL;
    if (file) {
        fprintf(file, "%lu\n%lu\n", counted, most);
        fclose(file);
    }
}
