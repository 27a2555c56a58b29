/* For tests/walk/faults.sh: the first read gets ten bytes, the second fails, and later ones are as the system's. */
#include <errno.h>
#include <sys/syscall.h>
#include <unistd.h>

static int calls;

ssize_t read(int fd, void *buf, size_t count) {
    calls++;
    if (calls == 2) {
        errno = EIO;
        return -1;
    }
    return syscall(SYS_read, fd, buf, calls == 1 && count > 10 ? 10 : count);
}
