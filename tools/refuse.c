/* Refuses one call of a program that loads this library first (LD_PRELOAD):
 *
 *     REFUSED=NAME    the function: malloc (with calloc and realloc), read, write, recv, send,
 *                     accept4 or pthread_create
 *     REFUSED_AT=K    the number of the call that fails, counted from 1
 *     REFUSED_MARK=F  a file that is made once it has failed
 *     MOST_BYTES=N    the most bytes that a recv, a send, a read of standard input or a write to
 *                     standard output moves
 *
 * Of read and write, only calls on these two streams count.
 */
#define _GNU_SOURCE
#include <dlfcn.h>
#include <errno.h>
#include <fcntl.h>
#include <pthread.h>
#include <stdatomic.h>
#include <stdlib.h>
#include <string.h>
#include <sys/socket.h>
#include <unistd.h>

extern void *__libc_malloc(size_t);
extern void *__libc_calloc(size_t, size_t);
extern void *__libc_realloc(void *, size_t);

static atomic_long calls;

/* Returns whether this call of a function is the one that fails. */
static int is_refused(const char *name, int error)
{
    const char *refused = getenv("REFUSED");
    const char *at = getenv("REFUSED_AT");
    const char *mark = getenv("REFUSED_MARK");
    if (!refused || !at || !mark || strcmp(refused, name) != 0)
        return 0;
    if (atomic_fetch_add(&calls, 1) + 1 != atol(at))
        return 0;
    close(open(mark, O_WRONLY | O_CREAT, 0644));
    errno = error;
    return 1;
}

/* Returns whether this call of a function fails. The connection is then broken for both ends. */
static int is_broken(const char *name, int error, int socket)
{
    if (!is_refused(name, error))
        return 0;
    shutdown(socket, SHUT_RDWR);
    errno = error;
    return 1;
}

static size_t at_most(size_t length)
{
    const char *most = getenv("MOST_BYTES");
    size_t limit = most ? (size_t)atol(most) : length;
    return length < limit ? length : limit;
}

void *malloc(size_t size)
{
    return is_refused("malloc", ENOMEM) ? NULL : __libc_malloc(size);
}

void *calloc(size_t count, size_t size)
{
    return is_refused("malloc", ENOMEM) ? NULL : __libc_calloc(count, size);
}

void *realloc(void *block, size_t size)
{
    return is_refused("malloc", ENOMEM) ? NULL : __libc_realloc(block, size);
}

ssize_t read(int file, void *bytes, size_t length)
{
    ssize_t (*next)(int, void *, size_t) = dlsym(RTLD_NEXT, "read");
    if (file != STDIN_FILENO)
        return next(file, bytes, length);
    return is_refused("read", EIO) ? -1 : next(file, bytes, at_most(length));
}

ssize_t write(int file, const void *bytes, size_t length)
{
    ssize_t (*next)(int, const void *, size_t) = dlsym(RTLD_NEXT, "write");
    if (file != STDOUT_FILENO)
        return next(file, bytes, length);
    return is_refused("write", EIO) ? -1 : next(file, bytes, at_most(length));
}

ssize_t recv(int socket, void *bytes, size_t length, int flags)
{
    ssize_t (*next)(int, void *, size_t, int) = dlsym(RTLD_NEXT, "recv");
    return is_broken("recv", ECONNRESET, socket) ? -1 : next(socket, bytes, at_most(length), flags);
}

ssize_t send(int socket, const void *bytes, size_t length, int flags)
{
    ssize_t (*next)(int, const void *, size_t, int) = dlsym(RTLD_NEXT, "send");
    return is_broken("send", EPIPE, socket) ? -1 : next(socket, bytes, at_most(length), flags);
}

int accept4(int socket, struct sockaddr *address, socklen_t *length, int flags)
{
    int (*next)(int, struct sockaddr *, socklen_t *, int) = dlsym(RTLD_NEXT, "accept4");
    return is_refused("accept4", EMFILE) ? -1 : next(socket, address, length, flags);
}

int pthread_create(pthread_t *thread, const pthread_attr_t *attributes, void *(*run)(void *),
                   void *given)
{
    int (*next)(pthread_t *, const pthread_attr_t *, void *(*)(void *), void *) =
        dlsym(RTLD_NEXT, "pthread_create");
    return is_refused("pthread_create", EAGAIN) ? EAGAIN : next(thread, attributes, run, given);
}
