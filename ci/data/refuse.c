/* Refuses the growth whose number REFUSED names, and then makes the file REFUSAL. */
#include <fcntl.h>
#include <stdatomic.h>
#include <stdlib.h>
#include <unistd.h>

extern void *__libc_malloc(size_t);
extern void *__libc_realloc(void *, size_t);
static long refused;
static atomic_long made;

__attribute__((constructor)) static void begin(void) {
    refused = atol(getenv("REFUSED"));
    made = 0;
}

static int is_refused(void) {
    if (refused == 0 || atomic_fetch_add(&made, 1) + 1 != refused)
        return 0;
    close(open(getenv("REFUSAL"), O_CREAT | O_WRONLY, 0600));
    return 1;
}

void *malloc(size_t size) { return is_refused() ? 0 : __libc_malloc(size); }

void *realloc(void *block, size_t size) { return is_refused() ? 0 : __libc_realloc(block, size); }
