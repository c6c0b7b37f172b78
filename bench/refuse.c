/* The allocator that memory.py preloads into the program: it refuses the calls from one number to another, and passes all others on to
   the C library.

   REFUSE_FROM and REFUSE_TO are the numbers of the first and the last call that is refused, 0 and 0 where none is. Calls of malloc, calloc,
   realloc, posix_memalign and aligned_alloc are counted together, from 1, once this library is loaded. When the program ends, their
   count is written to the descriptor REPORT_TO. */

#include <errno.h>
#include <stdio.h>
#include <stdlib.h>
#include <unistd.h>

extern void *__libc_malloc(size_t size);
extern void *__libc_calloc(size_t count, size_t size);
extern void *__libc_realloc(void *block, size_t size);
extern void *__libc_memalign(size_t alignment, size_t size);

static unsigned long calls, refuse_from, refuse_to;
static int is_counting, report_to = -1;

static unsigned long number(const char *name) {
    const char *text = getenv(name);
    return text ? strtoul(text, NULL, 10) : 0;
}

__attribute__((constructor)) static void start(void) {
    refuse_from = number("REFUSE_FROM");
    refuse_to = number("REFUSE_TO");
    report_to = (int)number("REPORT_TO");
    is_counting = 1;
}

__attribute__((destructor)) static void report(void) {
    char text[32];
    is_counting = 0;
    int length = snprintf(text, sizeof text, "%lu", calls);
    if (write(report_to, text, length) != length)
        _exit(127);
}

/* Counts the call, and says whether it is refused. */
static int is_refused(void) {
    if (!is_counting)
        return 0;
    calls++;
    if (calls < refuse_from || calls > refuse_to)
        return 0;
    errno = ENOMEM;
    return 1;
}

void *malloc(size_t size) {
    return is_refused() ? NULL : __libc_malloc(size);
}

void *calloc(size_t count, size_t size) {
    return is_refused() ? NULL : __libc_calloc(count, size);
}

void *realloc(void *block, size_t size) {
    return is_refused() ? NULL : __libc_realloc(block, size);
}

void *aligned_alloc(size_t alignment, size_t size) {
    return is_refused() ? NULL : __libc_memalign(alignment, size);
}

int posix_memalign(void **block, size_t alignment, size_t size) {
    if (is_refused())
        return ENOMEM;
    *block = __libc_memalign(alignment, size);
    return *block ? 0 : ENOMEM;
}
