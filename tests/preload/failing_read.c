/* Preloaded into the program: a read(2) that fails midway. Of the image, or of standard input where FAILING_INPUT is
 * set, the first read gives ten bytes at most and every later one fails. */
#define _GNU_SOURCE
#include <errno.h>
#include <stdlib.h>
#include <sys/syscall.h>
#include <unistd.h>

ssize_t read(int fd, void *buf, size_t count) {
    static int is_begun = 0;
    int is_input = getenv("FAILING_INPUT") != NULL;
    if ((fd == STDIN_FILENO) != is_input) {
        return syscall(SYS_read, fd, buf, count);
    }
    if (is_begun) {
        errno = EIO;
        return -1;
    }
    is_begun = 1;
    return syscall(SYS_read, fd, buf, count < 10 ? count : 10);
}
