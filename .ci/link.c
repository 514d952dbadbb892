/* Loaded before a program, fails each second name of a file, as where the file system has none. */
#include <errno.h>

int link(const char *file, const char *name)
{
    (void)file;
    (void)name;
    errno = EPERM;
    return -1;
}
