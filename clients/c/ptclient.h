/* A client of `ptserver serve`, for programs in C: this header alone, with C11 and POSIX sockets.
 *
 *     #include "ptclient.h"
 *
 *     struct pt_client client;
 *     if (pt_connect(&client, "/tmp/pt.sock") != 0 || pt_hello(&client, 10) != 0)
 *         return 1;
 *     if (pt_mutex_lock(&client, "m") == EOWNERDEAD)
 *         pt_mutex_consistent(&client, "m");
 *     pt_mutex_unlock(&client, "m");
 *     pt_close(&client);
 *
 * A connection is one client. The server treats it as a process with a single thread of a fixed
 * priority. When the connection is closed, that process has ended, and what it owns is handled as
 * POSIX prescribes for a dead owner.
 *
 * Each call word of the server has a function, which waits for its answer and returns it:
 *
 *     0            done
 *     an errno     what the function of POSIX returns: EPERM, EINVAL, EBUSY, EAGAIN, EDEADLK,
 *                  ETIMEDOUT, EOWNERDEAD, ENOTRECOVERABLE; and ENOMEM if the server has no memory
 *     PT_SERIAL    PTHREAD_BARRIER_SERIAL_THREAD
 *     PT_SYNTAX .. PT_FULL    the line was not accepted, and nothing has changed
 *     PT_WAITING   no answer yet: only from pt_answer, after its time has passed
 *     PT_LOST      the connection has ended, or an earlier line has not been answered yet
 *
 * docs/RULES.md says how each call is answered. Only one thread at a time may use a client. Define
 * _POSIX_C_SOURCE as 200809L or more, or compile with -std=gnu11.
 */
#ifndef PTCLIENT_H
#define PTCLIENT_H

#include <errno.h>
#include <poll.h>
#include <stdarg.h>
#include <stdio.h>
#include <stdlib.h>
#include <string.h>
#include <sys/socket.h>
#include <sys/un.h>
#include <time.h>
#include <unistd.h>

enum {
    PT_SERIAL = -1,
    PT_SYNTAX = -2,
    PT_LONG = -3,
    PT_DEAD = -4,
    PT_NOHELLO = -5,
    PT_BLOCKED = -6,
    PT_LIMIT = -7,
    PT_FULL = -8,
    PT_WAITING = -9,
    PT_LOST = -10
};

/* The longest line that the server reads, without its newline, and room for the longest answer. */
enum { PT_LINE = 128, PT_ANSWER = 64 };

struct pt_client {
    int socket;
    unsigned long long sent;
    unsigned long long answered;
    size_t length;
    char bytes[PT_ANSWER];
};

/* Connects to the socket at `path`. Returns 0 or an errno. */
static inline int pt_connect(struct pt_client *client, const char *path)
{
    struct sockaddr_un address = {.sun_family = AF_UNIX};
    *client = (struct pt_client){.socket = -1};
    if (strlen(path) >= sizeof address.sun_path)
        return ENAMETOOLONG;
    strcpy(address.sun_path, path);
    int made = socket(AF_UNIX, SOCK_STREAM, 0);
    if (made < 0)
        return errno;
    if (connect(made, (const struct sockaddr *)&address, sizeof address) != 0) {
        int error = errno;
        close(made);
        return error;
    }
    client->socket = made;
    return 0;
}

/* Closes the connection, which ends the client's process. */
static inline void pt_close(struct pt_client *client)
{
    if (client->socket >= 0)
        close(client->socket);
    client->socket = -1;
}

/* Returns 1 if a line that was sent has no answer yet, and 0 otherwise. */
static inline int pt_is_waiting(const struct pt_client *client)
{
    return client->answered < client->sent;
}

/* Sends these bytes. Returns 0 or PT_LOST. */
static inline int pt_put(struct pt_client *client, const char *bytes, size_t length)
{
    while (length > 0) {
        ssize_t count = send(client->socket, bytes, length, MSG_NOSIGNAL);
        if (count < 0 && errno == EINTR)
            continue;
        if (count <= 0)
            return PT_LOST;
        bytes += count;
        length -= (size_t)count;
    }
    return 0;
}

static inline int pt_send_list(struct pt_client *client, const char *format, va_list words)
{
    char line[4 * PT_LINE];
    int length = vsnprintf(line, sizeof line - 1, format, words);
    if (length < 0 || (size_t)length >= sizeof line - 1)
        return PT_LONG;
    line[length] = '\n';
    if (pt_put(client, line, (size_t)length + 1) != 0)
        return PT_LOST;
    client->sent++;
    return 0;
}

/* Sends a line without waiting for its answer, which pt_answer returns. The format is that of
 * printf. Returns 0, PT_LOST, or PT_LONG if the line is too long to be sent. */
static inline int pt_send(struct pt_client *client, const char *format, ...)
{
    va_list words;
    va_start(words, format);
    int result = pt_send_list(client, format, words);
    va_end(words);
    return result;
}

/* Returns the value that a caller gets for the word of an answer. */
static inline int pt_value_of(const char *word)
{
    static const struct {
        const char *word;
        int value;
    } table[] = {
        {"0", 0},
        {"SERIAL", PT_SERIAL},
        {"EPERM", EPERM},
        {"EINVAL", EINVAL},
        {"EBUSY", EBUSY},
        {"EAGAIN", EAGAIN},
        {"EDEADLK", EDEADLK},
        {"ETIMEDOUT", ETIMEDOUT},
        {"EOWNERDEAD", EOWNERDEAD},
        {"ENOTRECOVERABLE", ENOTRECOVERABLE},
        {"SYNTAX", PT_SYNTAX},
        {"LONG", PT_LONG},
        {"DEAD", PT_DEAD},
        {"NOHELLO", PT_NOHELLO},
        {"BLOCKED", PT_BLOCKED},
        {"LIMIT", PT_LIMIT},
        {"FULL", PT_FULL},
        {"ENOMEM", ENOMEM},
    };
    for (size_t row = 0; row < sizeof table / sizeof table[0]; row++)
        if (strcmp(table[row].word, word) == 0)
            return table[row].value;
    return PT_LOST;
}

static inline long long pt_milliseconds(void)
{
    struct timespec now;
    clock_gettime(CLOCK_MONOTONIC, &now);
    return now.tv_sec * 1000LL + now.tv_nsec / 1000000;
}

/* Waits until something can be read. Returns 0, PT_WAITING or PT_LOST. */
static inline int pt_wait_readable(struct pt_client *client, int milliseconds, long long until)
{
    for (;;) {
        long long left = milliseconds < 0 ? -1 : until - pt_milliseconds();
        if (milliseconds >= 0 && left < 0)
            left = 0;
        struct pollfd look = {.fd = client->socket, .events = POLLIN};
        int count = poll(&look, 1, (int)left);
        if (count > 0)
            return 0;
        if (count == 0)
            return PT_WAITING;
        if (errno != EINTR)
            return PT_LOST;
    }
}

/* Reads once. Returns 0 or PT_LOST. */
static inline int pt_read(struct pt_client *client)
{
    if (client->length == sizeof client->bytes)
        return PT_LOST;
    for (;;) {
        ssize_t count = recv(client->socket, client->bytes + client->length,
                             sizeof client->bytes - client->length, 0);
        if (count < 0 && errno == EINTR)
            continue;
        if (count <= 0)
            return PT_LOST;
        client->length += (size_t)count;
        return 0;
    }
}

/* Takes the first line of what was read. Returns its value, or PT_LOST if it does not answer the
 * next line. */
static inline int pt_take(struct pt_client *client, char *newline)
{
    *newline = '\0';
    char *end;
    unsigned long long number = strtoull(client->bytes, &end, 10);
    int value = PT_LOST;
    if (*end == ' ' && number == client->answered + 1)
        value = pt_value_of(end + 1);
    client->answered++;
    size_t used = (size_t)(newline + 1 - client->bytes);
    client->length -= used;
    memmove(client->bytes, newline + 1, client->length);
    return value;
}

/* Waits for the answer to the oldest line that has none yet, and returns it. After this many
 * milliseconds returns PT_WAITING, and the call still waits in the server; -1 waits without end. */
static inline int pt_answer(struct pt_client *client, int milliseconds)
{
    if (!pt_is_waiting(client))
        return PT_LOST;
    long long until = milliseconds < 0 ? 0 : pt_milliseconds() + milliseconds;
    for (;;) {
        char *newline = memchr(client->bytes, '\n', client->length);
        if (newline != NULL)
            return pt_take(client, newline);
        int result = pt_wait_readable(client, milliseconds, until);
        if (result == 0)
            result = pt_read(client);
        if (result != 0)
            return result;
    }
}

/* Sends a line and returns its answer. */
static inline int pt_ask(struct pt_client *client, const char *format, ...)
{
    if (pt_is_waiting(client))
        return PT_LOST;
    va_list words;
    va_start(words, format);
    int result = pt_send_list(client, format, words);
    va_end(words);
    return result == 0 ? pt_answer(client, -1) : result;
}

/* Clients and clocks. A priority is 1 to 99, 99 is the highest. A clock is "real" or "mono". */

static inline int pt_hello(struct pt_client *client, int priority)
{
    return pt_ask(client, "hello %d", priority);
}

static inline int pt_moment(struct pt_client *client, struct timespec now)
{
    return pt_ask(client, "moment %lld %ld", (long long)now.tv_sec, now.tv_nsec);
}

static inline int pt_mono_moment(struct pt_client *client, struct timespec now)
{
    return pt_ask(client, "mono-moment %lld %ld", (long long)now.tv_sec, now.tv_nsec);
}

/* Defines the function for a call word with a name. */
#define PT_NAMED(function, word)                                            \
    static inline int function(struct pt_client *client, const char *name) \
    {                                                                       \
        return pt_ask(client, word " %s", name);                            \
    }

/* Defines the function for a call word with a name and a deadline. */
#define PT_TIMED(function, word)                                                  \
    static inline int function(struct pt_client *client, const char *name,        \
                               struct timespec deadline)                          \
    {                                                                             \
        return pt_ask(client, word " %s %lld %ld", name,                          \
                      (long long)deadline.tv_sec, deadline.tv_nsec);              \
    }

/* Defines the function for a call word with a name, a clock and a deadline. */
#define PT_CLOCKED(function, word)                                                \
    static inline int function(struct pt_client *client, const char *name,        \
                               const char *clock, struct timespec deadline)       \
    {                                                                             \
        return pt_ask(client, word " %s %s %lld %ld", name, clock,                \
                      (long long)deadline.tv_sec, deadline.tv_nsec);              \
    }

/* Mutexes. The kind is "normal", "default", "errorcheck" or "recursive", and robust is "robust" or
 * "stalled". */

static inline int pt_mutex_init(struct pt_client *client, const char *name, const char *kind,
                                const char *robust)
{
    return pt_ask(client, "mutex-init %s %s %s", name, kind, robust);
}

PT_NAMED(pt_mutex_lock, "lock")
PT_NAMED(pt_mutex_trylock, "trylock")
PT_TIMED(pt_mutex_timedlock, "timedlock")
PT_CLOCKED(pt_mutex_clocklock, "clocklock")
PT_NAMED(pt_mutex_unlock, "unlock")
PT_NAMED(pt_mutex_consistent, "consistent")
PT_NAMED(pt_mutex_destroy, "mutex-destroy")

/* Read-write locks. */

PT_NAMED(pt_rwlock_init, "rwlock-init")
PT_NAMED(pt_rwlock_rdlock, "rdlock")
PT_NAMED(pt_rwlock_tryrdlock, "tryrdlock")
PT_TIMED(pt_rwlock_timedrdlock, "timedrdlock")
PT_CLOCKED(pt_rwlock_clockrdlock, "clockrdlock")
PT_NAMED(pt_rwlock_wrlock, "wrlock")
PT_NAMED(pt_rwlock_trywrlock, "trywrlock")
PT_TIMED(pt_rwlock_timedwrlock, "timedwrlock")
PT_CLOCKED(pt_rwlock_clockwrlock, "clockwrlock")
PT_NAMED(pt_rwlock_unlock, "rwunlock")
PT_NAMED(pt_rwlock_destroy, "rwlock-destroy")

/* Conditions. */

static inline int pt_cond_wait(struct pt_client *client, const char *name, const char *mutex)
{
    return pt_ask(client, "wait %s %s", name, mutex);
}

static inline int pt_cond_timedwait(struct pt_client *client, const char *name, const char *mutex,
                                    struct timespec deadline)
{
    return pt_ask(client, "timedwait %s %s %lld %ld", name, mutex, (long long)deadline.tv_sec,
                  deadline.tv_nsec);
}

static inline int pt_cond_clockwait(struct pt_client *client, const char *name, const char *mutex,
                                    const char *clock, struct timespec deadline)
{
    return pt_ask(client, "clockwait %s %s %s %lld %ld", name, mutex, clock,
                  (long long)deadline.tv_sec, deadline.tv_nsec);
}

PT_NAMED(pt_cond_init, "cond-init")
PT_NAMED(pt_cond_signal, "signal")
PT_NAMED(pt_cond_broadcast, "broadcast")
PT_NAMED(pt_cond_destroy, "cond-destroy")

/* Barriers. */

static inline int pt_barrier_init(struct pt_client *client, const char *name, unsigned count)
{
    return pt_ask(client, "barrier-init %s %u", name, count);
}

PT_NAMED(pt_barrier_wait, "bwait")
PT_NAMED(pt_barrier_destroy, "barrier-destroy")

#undef PT_NAMED
#undef PT_TIMED
#undef PT_CLOCKED

#endif
