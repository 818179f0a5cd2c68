/* Stands before the C library in the program: writes down how long each file was when it was put on disk, and ends the process before its so many-th
   sync where PLUG_AT says so. What a file has beyond the length written down is what a pulled plug may take. */
#include <fcntl.h>
#include <signal.h>
#include <stdio.h>
#include <stdlib.h>
#include <sys/stat.h>
#include <sys/syscall.h>
#include <unistd.h>

static int put(int fd, long call) {
    static int syncs;
    const char *at = getenv("PLUG_AT"), *log = getenv("PLUG_LOG");
    if (at != NULL && ++syncs == atoi(at)) kill(getpid(), SIGKILL);
    struct stat found;
    char link[64], name[2048], line[2200];
    fstat(fd, &found);
    if (syscall(call, fd) != 0) return -1;
    snprintf(link, sizeof link, "/proc/self/fd/%d", fd);
    ssize_t length = readlink(link, name, sizeof name - 1);
    int to = open(log, O_WRONLY | O_CREAT | O_APPEND | O_CLOEXEC, 0644);
    int size = snprintf(line, sizeof line, "%.*s\t%lld\n", (int)length, name, (long long)found.st_size);
    if (length < 0 || to < 0 || write(to, line, (size_t)size) != size) abort();
    close(to);
    return 0;
}

int fdatasync(int fd) { return put(fd, SYS_fdatasync); }
int fsync(int fd) { return put(fd, SYS_fsync); }
