/* Loaded before a program, refuses its REFUSE-th call for memory, and then leaves a byte in the file REFUSED. */
#include <fcntl.h>
#include <stddef.h>
#include <stdlib.h>
#include <unistd.h>

extern void *__libc_malloc(size_t size);
extern void *__libc_calloc(size_t count, size_t size);
extern void *__libc_realloc(void *old, size_t size);

static unsigned long calls, refused_call;

static int is_refused(void)
{
    if (calls++ == 0) {
        const char *text = getenv("REFUSE");
        refused_call = text ? strtoul(text, NULL, 10) : 0;
    }
    if (calls != refused_call)
        return 0;
    int mark = open(getenv("REFUSED"), O_WRONLY | O_CREAT | O_TRUNC, 0600);
    if (mark < 0 || write(mark, "!", 1) != 1)
        abort();
    close(mark);
    return 1;
}

void *malloc(size_t size)
{
    return is_refused() ? NULL : __libc_malloc(size);
}

void *calloc(size_t count, size_t size)
{
    return is_refused() ? NULL : __libc_calloc(count, size);
}

void *realloc(void *old, size_t size)
{
    return is_refused() ? NULL : __libc_realloc(old, size);
}
