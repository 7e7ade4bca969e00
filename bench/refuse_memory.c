/* Refuses the allocation whose number stands in REFUSED, counted from 1, or all from the number in REFUSED_FROM on,
 * and counts them: loaded before a program by bench/memory. The count goes to the file COUNTED, if there is one. */
#include <errno.h>
#include <fcntl.h>
#include <stddef.h>
#include <stdio.h>
#include <stdlib.h>
#include <unistd.h>

extern void *__libc_malloc(size_t);
extern void *__libc_calloc(size_t, size_t);
extern void *__libc_realloc(void *, size_t);
extern void *__libc_memalign(size_t, size_t);

static unsigned long count, refused, refused_from;

static unsigned long number_in(const char *name)
{
    const char *number = getenv(name);
    return number ? strtoul(number, NULL, 10) : 0;
}

__attribute__((constructor)) static void begin(void)
{
    refused = number_in("REFUSED");
    refused_from = number_in("REFUSED_FROM");
    count = 0;
}

__attribute__((destructor)) static void end(void)
{
    const char *name = getenv("COUNTED");
    char text[32];
    int file = name ? open(name, O_WRONLY | O_CREAT | O_TRUNC, 0600) : -1;
    if (file >= 0) {
        int length = snprintf(text, sizeof text, "%lu\n", count);
        if (write(file, text, (size_t)length) != length)
            _exit(99);
        close(file);
    }
}

static int is_refused(void)
{
    count++;
    if (count != refused && (!refused_from || count < refused_from))
        return 0;
    errno = ENOMEM;
    return 1;
}

void *malloc(size_t size) { return is_refused() ? NULL : __libc_malloc(size); }
void *calloc(size_t n, size_t size) { return is_refused() ? NULL : __libc_calloc(n, size); }
void *realloc(void *old, size_t size) { return is_refused() ? NULL : __libc_realloc(old, size); }
void *aligned_alloc(size_t align, size_t size) { return is_refused() ? NULL : __libc_memalign(align, size); }
void *memalign(size_t align, size_t size) { return is_refused() ? NULL : __libc_memalign(align, size); }

int posix_memalign(void **place, size_t align, size_t size)
{
    void *made = is_refused() ? NULL : __libc_memalign(align, size);
    if (!made)
        return ENOMEM;
    *place = made;
    return 0;
}
