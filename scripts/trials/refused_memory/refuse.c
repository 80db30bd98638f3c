/* Loaded before the C library (LD_PRELOAD): the call of malloc, calloc, realloc or of an aligned allocation whose number
 * stands in REFUSE, counted from 1, is refused, and no other. Without REFUSE none is. A refusal is report by a byte to the
 * file descriptor that stands in REPORT. For scripts/trials/refused_memory.py. */
#include <errno.h>
#include <stdlib.h>
#include <unistd.h>

extern void *__libc_malloc(size_t size);
extern void *__libc_calloc(size_t count, size_t size);
extern void *__libc_realloc(void *old, size_t size);
extern void *__libc_memalign(size_t alignment, size_t size);

static int is_refused(void) {
    static unsigned long calls, refused;
    if (calls++ == 0) {
        const char *text = getenv("REFUSE");
        refused = text ? strtoul(text, NULL, 10) : 0;
    }
    if (calls != refused) return 0;
    const char *report = getenv("REPORT");
    if (report && write(atoi(report), "!", 1) != 1) _exit(99);
    errno = ENOMEM;
    return 1;
}

void *malloc(size_t size) { return is_refused() ? NULL : __libc_malloc(size); }
void *calloc(size_t count, size_t size) { return is_refused() ? NULL : __libc_calloc(count, size); }
void *realloc(void *old, size_t size) { return is_refused() ? NULL : __libc_realloc(old, size); }
void *memalign(size_t alignment, size_t size) { return is_refused() ? NULL : __libc_memalign(alignment, size); }
void *aligned_alloc(size_t alignment, size_t size) { return memalign(alignment, size); }
int posix_memalign(void **out, size_t alignment, size_t size) {
    *out = memalign(alignment, size);
    return *out ? 0 : ENOMEM;
}
