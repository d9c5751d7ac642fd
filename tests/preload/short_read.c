/* Preloaded into a program: a read(2) that gives of standard input from one byte up to SHORT_READ bytes at a time, by
 * turns. */
#define _GNU_SOURCE
#include <stdlib.h>
#include <sys/syscall.h>
#include <unistd.h>

ssize_t read(int fd, void *buf, size_t count) {
    static size_t turn = 0;
    const char *most = getenv("SHORT_READ");
    size_t some = most == NULL ? count : 1 + turn++ % strtoul(most, NULL, 10);
    return syscall(SYS_read, fd, buf, fd == STDIN_FILENO && some < count ? some : count);
}
