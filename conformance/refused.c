// Preloaded before a program: refuses one allocation, the call of malloc or realloc that REFUSED counts from 1, or from
// that call on as many as REFUSED_FOR says, or all where REFUSED_ON is set. COUNTED names a file that gets the number
// of such calls at the end.
#include <limits.h>
#include <stdio.h>
#include <stdlib.h>

void *__libc_malloc(size_t);
void *__libc_realloc(void *, size_t);

// The calls so far, the first one that is refused, 0 for none, and how many are still to be refused.
static long calls, refused = -1, left;

static int refuses(void) {
    if (refused < 0) {
        char *word = getenv("REFUSED"), *many = getenv("REFUSED_FOR");
        refused = word ? atol(word) : 0;
        left = getenv("REFUSED_ON") ? LONG_MAX : many ? atol(many) : 1;
    }
    calls++;
    if (!refused || calls < refused || left == 0) return 0;
    left--;
    return 1;
}

void *malloc(size_t size) { return refuses() ? NULL : __libc_malloc(size); }

void *realloc(void *old, size_t size) { return refuses() ? NULL : __libc_realloc(old, size); }

__attribute__((destructor)) static void tell(void) {
    char *path = getenv("COUNTED");
    long counted = calls;
    if (path == NULL) return;
    refused = 0;
    FILE *file = fopen(path, "w");
    if (file == NULL) return;
    fprintf(file, "%ld\n", counted);
    fclose(file);
}
