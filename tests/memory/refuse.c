/* Refuses allocations of the program that it is loaded into (LD_PRELOAD). They are numbered from 1, over
 * all threads. The environment says which one is refused, REFUSE, whether all behind it are too,
 * REFUSE_REST, and to which open file a byte is written when one is, REFUSE_TELL. For the GNU C library.
 */
#include <errno.h>
#include <stddef.h>
#include <stdlib.h>
#include <unistd.h>

extern void *__libc_malloc(size_t size);
extern void *__libc_calloc(size_t count, size_t size);
extern void *__libc_realloc(void *old, size_t size);
extern void *__libc_memalign(size_t align, size_t size);

static unsigned long made, refused;
static int rest, tell = -1;

static unsigned long number_of(const char *name) {
    const char *text = getenv(name);
    return text == NULL ? 0 : strtoul(text, NULL, 10);
}

__attribute__((constructor)) static void begin(void) {
    rest = getenv("REFUSE_REST") != NULL;
    tell = (int)number_of("REFUSE_TELL");
    refused = number_of("REFUSE");
}

static int is_refused(void) {
    if (refused == 0) {
        return 0;
    }
    unsigned long number = __atomic_add_fetch(&made, 1, __ATOMIC_SEQ_CST);
    if (number != refused && !(rest && number > refused)) {
        return 0;
    }
    if (number == refused && write(tell, "r", 1) != 1) {
        _exit(70);
    }
    errno = ENOMEM;
    return 1;
}

void *malloc(size_t size) {
    return is_refused() ? NULL : __libc_malloc(size);
}

void *calloc(size_t count, size_t size) {
    return is_refused() ? NULL : __libc_calloc(count, size);
}

void *realloc(void *old, size_t size) {
    return is_refused() ? NULL : __libc_realloc(old, size);
}

void *memalign(size_t align, size_t size) {
    return is_refused() ? NULL : __libc_memalign(align, size);
}

void *aligned_alloc(size_t align, size_t size) {
    return memalign(align, size);
}

int posix_memalign(void **made_at, size_t align, size_t size) {
    void *at = memalign(align, size);
    if (at == NULL) {
        return ENOMEM;
    }
    *made_at = at;
    return 0;
}
