// Loaded into a program before the C library, it lets some of the program's allocations fail. FAILING=N lets the Nth one
// fail, counted from 1, and FAILING=N.. that one and all behind it. When the program ends, the number of its allocations
// is written to the file that ALLOCATIONS names.
#include <errno.h>
#include <stdio.h>
#include <stdlib.h>
#include <string.h>

extern void *__libc_malloc(size_t size);
extern void *__libc_realloc(void *block, size_t size);

static unsigned long made, failing;
static int all_behind;

__attribute__((constructor)) static void begin(void) {
    const char *text = getenv("FAILING");
    if (text) {
        failing = strtoul(text, NULL, 10);
        all_behind = strstr(text, "..") != NULL;
    }
    made = 0;
}

static int fails(void) {
    made++;
    if (failing && (made == failing || (all_behind && made > failing))) {
        errno = ENOMEM;
        return 1;
    }
    return 0;
}

void *malloc(size_t size) {
    return fails() ? NULL : __libc_malloc(size);
}

void *realloc(void *block, size_t size) {
    return fails() ? NULL : __libc_realloc(block, size);
}

__attribute__((destructor)) static void end(void) {
    const char *name = getenv("ALLOCATIONS");
    unsigned long count = made;
    failing = 0;
    FILE *file = name ? fopen(name, "w") : NULL;
    if (file) {
        fprintf(file, "%lu\n", count);
        fclose(file);
    }
}
