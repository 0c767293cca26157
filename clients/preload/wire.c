/* The connection of a thread: lines and their answers.
 *
 * Nothing here is a cancellation point or changes errno, since a call of a lock is and does
 * neither: all input and output is by `syscall`.
 */
#include "preload.h"

#include <fcntl.h>
#include <sched.h>
#include <stdarg.h>
#include <stdio.h>
#include <stdlib.h>
#include <string.h>
#include <sys/resource.h>
#include <sys/socket.h>
#include <sys/syscall.h>
#include <sys/un.h>
#include <unistd.h>

enum { LINE = 160 };
enum { REFUSED = -2, LOST = -3 };

static const struct {
    const char *word;
    int value;
    const char *limit;      /* why the server refused a line */
} WORDS[] = {
    {"0", 0, NULL},
    {"SERIAL", SERIAL, NULL},
    {"EPERM", EPERM, NULL},
    {"EINVAL", EINVAL, NULL},
    {"EBUSY", EBUSY, NULL},
    {"EAGAIN", EAGAIN, NULL},
    {"EDEADLK", EDEADLK, NULL},
    {"ETIMEDOUT", ETIMEDOUT, NULL},
    {"EOWNERDEAD", EOWNERDEAD, NULL},
    {"ENOTRECOVERABLE", ENOTRECOVERABLE, NULL},
    {"ENOMEM", ENOMEM, NULL},
    {"LIMIT", REFUSED, "LIMIT: 1,024 clients live at the server"},
    {"FULL", REFUSED, "FULL: the server's history has no room"},
    {"LONG", REFUSED, "LONG: a line has more than 128 bytes"},
    {"SYNTAX", REFUSED, "SYNTAX: the server doesn't know this line"},
    {"DEAD", REFUSED, "DEAD: this thread's client has died"},
    {"NOHELLO", REFUSED, "NOHELLO: this thread's client has not joined"},
    {"BLOCKED", REFUSED, "BLOCKED: this thread's last call is open"},
};

_Thread_local struct link me __attribute__((tls_model("initial-exec")));
struct slot slots[SLOTS];

void say(const char *format, ...)
{
    char text[400];
    va_list words;
    int length = snprintf(text, sizeof text, "ptpreload[%d.%d]: ", (int)my_pid, (int)my_tid());
    va_start(words, format);
    length += vsnprintf(text + length, sizeof text - (size_t)length, format, words);
    va_end(words);
    if ((size_t)length > sizeof text - 1)
        length = sizeof text - 1;
    text[length] = '\n';
    (void)!syscall(SYS_write, STDERR_FILENO, text, (size_t)length + 1);
}

void give_up(const char *why, const char *line)
{
    say("%s: %s", why, line);
    abort();
}

int move_up(int low)
{
    struct rlimit most;
    int from = 2048;
    if (getrlimit(RLIMIT_NOFILE, &most) == 0 && most.rlim_cur < 4096)
        from = (int)most.rlim_cur / 2;
    int high = (int)syscall(SYS_fcntl, low, F_DUPFD_CLOEXEC, from);
    if (high < 0)
        return low;
    syscall(SYS_close, low);
    return high;
}

static int open_socket(void)
{
    int low = (int)syscall(SYS_socket, AF_UNIX, SOCK_STREAM | SOCK_CLOEXEC, 0);
    if (low < 0)
        give_up("no socket for a thread", strerror(errno));
    return move_up(low);
}

static void connect_socket(int made)
{
    struct sockaddr_un address = {.sun_family = AF_UNIX};
    if (socket_path == NULL)
        give_up("no server", "PTPRELOAD_SOCKET is not set");
    if (strlen(socket_path) >= sizeof address.sun_path)
        give_up("the socket's path is too long", socket_path);
    memcpy(address.sun_path, socket_path, strlen(socket_path) + 1);
    while (syscall(SYS_connect, made, &address, sizeof address) != 0)
        if (errno != EINTR && errno != EAGAIN)
            give_up("can't connect to the server", strerror(errno));
}

/* Sends these bytes. Returns 0 or LOST. */
static int put(int socket, const char *bytes, size_t length)
{
    while (length > 0) {
        long count = syscall(SYS_sendto, socket, bytes, length, MSG_NOSIGNAL, NULL, 0);
        if (count < 0 && errno == EINTR)
            continue;
        if (count <= 0)
            return LOST;
        bytes += count;
        length -= (size_t)count;
    }
    return 0;
}

/* Returns the row of a word in WORDS, or -1. */
static int row_of(const char *word)
{
    for (int row = 0; row < (int)(sizeof WORDS / sizeof WORDS[0]); row++)
        if (strcmp(WORDS[row].word, word) == 0)
            return row;
    return -1;
}

/* Reads until there is a line. Returns its end, or NULL if the connection is lost. */
static char *read_line(struct link *link)
{
    for (;;) {
        char *newline = memchr(link->bytes, '\n', link->length);
        if (newline != NULL || link->length == sizeof link->bytes)
            return newline;
        long count = syscall(SYS_recvfrom, link->socket, link->bytes + link->length,
                             sizeof link->bytes - link->length, 0, NULL, NULL);
        if (count < 0 && errno == EINTR)
            continue;
        if (count <= 0)
            return NULL;
        link->length += (size_t)count;
    }
}

/* Reads the answer to the last line. Returns its row in WORDS, or -1 if the connection is lost. */
static int read_answer(struct link *link, const char *line)
{
    char *newline = read_line(link);
    if (newline == NULL)
        return -1;
    *newline = '\0';
    char *end;
    unsigned long long number = strtoull(link->bytes, &end, 10);
    int row = number == link->sent && *end == ' ' ? row_of(end + 1) : -1;
    if (is_tracing && row >= 0)
        trace_answer(link, line, WORDS[row].word);
    size_t used = (size_t)(newline + 1 - link->bytes);
    link->length -= used;
    memmove(link->bytes, newline + 1, link->length);
    return row;
}

/* Sends a line that ends in a newline, and returns its answer. */
static int exchange(struct link *link, char *line, size_t length)
{
    line[length - 1] = '\0';
    if (is_tracing)
        trace_line(link, line);
    link->is_asking = 1;
    link->sent++;
    line[length - 1] = '\n';
    int is_sent = put(link->socket, line, length) == 0;
    line[length - 1] = '\0';
    if (is_tracing)
        trace_settle(link, line);
    int row = is_sent ? read_answer(link, line) : -1;
    if (row < 0)
        give_up("the connection to the server is lost", line);
    if (WORDS[row].value == REFUSED)
        give_up(WORDS[row].limit, line);
    link->is_asking = 0;
    return WORDS[row].value;
}

static int ask_list(struct link *link, const char *format, va_list words)
{
    char line[LINE];
    int length = vsnprintf(line, sizeof line - 1, format, words);
    if (length < 0 || (size_t)length >= sizeof line - 1)
        give_up("a line is too long", line);
    return exchange(link, line, (size_t)length + 1);
}

int link_ask(struct link *link, const char *format, ...)
{
    va_list words;
    va_start(words, format);
    int answer = ask_list(link, format, words);
    va_end(words);
    return answer;
}

static void say_hello(struct link *link, int priority)
{
    connect_socket(link->socket);
    link->trace = -1;
    if (is_tracing)
        trace_join(link);
    link->is_open = 1;
    if (link_ask(link, "hello %d", priority) != 0)
        give_up("ENOMEM: the server has no memory for a client", "hello");
}

void link_join(struct link *link, int priority)
{
    *link = (struct link){.socket = open_socket(), .slot = -1};
    say_hello(link, priority);
}

/* Returns the thread's priority under SCHED_FIFO or SCHED_RR, else 10. */
static int my_priority(void)
{
    struct sched_param param;
    int policy = sched_getscheduler(0);
    if ((policy == SCHED_FIFO || policy == SCHED_RR) && sched_getparam(0, &param) == 0)
        return param.sched_priority;
    return 10;
}

/* Opens a socket and takes a slot for it. No fork comes between. */
static void open_mine(void)
{
    lock_slots();
    int slot = 0;
    while (slot < SLOTS && atomic_load(&slots[slot].socket1) != 0)
        slot++;
    if (slot == SLOTS)
        give_up("LIMIT", "2,048 connections of this process");
    me = (struct link){.is_asking = 1, .socket = open_socket(), .slot = slot};
    atomic_store(&slots[slot].socket1, me.socket + 1);
    unlock_slots();
}

static void connect_me(void)
{
    me.is_asking = 1;
    begin();
    open_mine();
    say_hello(&me, my_priority());
    thread_connected();
}

int ask(const char *format, ...)
{
    int saved = errno;
    va_list words;
    if (me.is_asking)
        give_up("a signal handler made a call while its thread's last call was open",
                "a client has one call at a time");
    if (!me.is_open)
        connect_me();
    va_start(words, format);
    int answer = ask_list(&me, format, words);
    va_end(words);
    errno = saved;
    return answer;
}

/* Waits until the server has closed a connection whose sending side is closed. */
static void wait_for_close(int socket)
{
    char rest[ANSWER];
    struct timeval most = {.tv_sec = 2};
    setsockopt(socket, SOL_SOCKET, SO_RCVTIMEO, &most, sizeof most);
    for (;;) {
        long count = syscall(SYS_recvfrom, socket, rest, sizeof rest, 0, NULL, NULL);
        if (count == 0 || (count < 0 && errno != EINTR))
            return;
    }
}

/* The server closes a connection after the death of its client, so the end of file shows that. */
void link_leave(struct link *link)
{
    if (is_tracing)
        trace_die(link);
    syscall(SYS_shutdown, link->socket, SHUT_WR);
    wait_for_close(link->socket);
    if (is_tracing)
        trace_unlock(link->trace);
    lock_slots();
    if (link->slot >= 0) {
        atomic_store(&slots[link->slot].trace1, 0);
        atomic_store(&slots[link->slot].socket1, 0);
    }
    syscall(SYS_close, link->socket);
    if (link->trace >= 0)
        syscall(SYS_close, link->trace);
    unlock_slots();
    link->is_open = 0;
}
