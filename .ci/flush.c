/* Loaded before a program, fails each flush of a folder, with the error whose number stands in FLUSH. */
#define _GNU_SOURCE
#include <errno.h>
#include <stdlib.h>
#include <sys/stat.h>
#include <sys/syscall.h>
#include <unistd.h>

int fsync(int file)
{
    struct stat found;
    if (fstat(file, &found) == 0 && S_ISDIR(found.st_mode)) {
        errno = atoi(getenv("FLUSH"));
        return -1;
    }
    return (int)syscall(SYS_fsync, file);
}
