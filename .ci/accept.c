/* Loaded before a program, fails its first accept of a connection, with the error whose number stands in ACCEPT. */
#define _GNU_SOURCE
#include <errno.h>
#include <stdlib.h>
#include <sys/socket.h>
#include <sys/syscall.h>
#include <unistd.h>

int accept4(int file, struct sockaddr *from, socklen_t *size, int flags)
{
    static int failed;
    if (!failed) {
        failed = 1;
        errno = atoi(getenv("ACCEPT"));
        return -1;
    }
    return (int)syscall(SYS_accept4, file, from, size, flags);
}
