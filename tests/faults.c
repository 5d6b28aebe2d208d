/* Loaded before the C library, it makes reads of standard input and writes to standard output go wrong. READS and WRITES have a word
   for each call, the last for all that follow: `all` is the call as it is, a number moves at most so many bytes, and an error's name
   fails with it. Where NONBLOCKING is set, standard input is made so. */
#include <errno.h>
#include <fcntl.h>
#include <stdlib.h>
#include <string.h>
#include <sys/syscall.h>
#include <unistd.h>

static const char *reads, *writes;

__attribute__((constructor)) static void start(void) {
    reads = getenv("READS");
    writes = getenv("WRITES");
    if (getenv("NONBLOCKING") != NULL) fcntl(STDIN_FILENO, F_SETFL, O_NONBLOCK);
}

static int is(const char *word, const char *name) {
    size_t length = strlen(name);
    return strncmp(word, name, length) == 0 && (word[length] == ' ' || word[length] == '\0');
}

/* How many bytes the next call may move, or -1 where it fails. */
static ssize_t next(const char **words, size_t most) {
    if (*words == NULL) return (ssize_t)most;
    const char *word = *words, *space = strchr(word, ' ');
    if (space != NULL) *words = space + 1;
    if (is(word, "all")) return (ssize_t)most;
    if (is(word, "EINTR")) return errno = EINTR, -1;
    if (is(word, "EAGAIN")) return errno = EAGAIN, -1;
    if (is(word, "EIO")) return errno = EIO, -1;
    size_t count = strtoul(word, NULL, 10);
    return (ssize_t)(count < most ? count : most);
}

ssize_t read(int descriptor, void *buffer, size_t count) {
    ssize_t most = descriptor == STDIN_FILENO ? next(&reads, count) : (ssize_t)count;
    return most < 0 ? -1 : syscall(SYS_read, descriptor, buffer, (size_t)most);
}

ssize_t write(int descriptor, const void *buffer, size_t count) {
    ssize_t most = descriptor == STDOUT_FILENO ? next(&writes, count) : (ssize_t)count;
    return most < 0 ? -1 : syscall(SYS_write, descriptor, buffer, (size_t)most);
}
