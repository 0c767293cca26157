/* PTPRELOAD_TRACE=FILE: each call and its answer, as lines of a script and, behind `> `, what was
 * seen. Each thread is a client c1, c2, .. of the script:
 *
 *     # clients: 0000002
 *     c1 hello 10
 *     > c1 1 0
 *     c1 lock p812.7ffd0c5b2ac0.0
 *     > c1 2 0
 *     c1 die
 *
 * The file is locked from the writing of a line until its answer is there, or for a call that may
 * wait until `SETTLED` has passed. So the lines have the order in which the server dealt with them,
 * unless it takes longer than that. The moment of a deadline is written when ETIMEDOUT is seen.
 *
 * A process that is killed can't write that its clients die. Each client has a byte of the file
 * locked for as long as its process lives, and whoever writes next looks for those that have not.
 */
#include "preload.h"

#include <fcntl.h>
#include <limits.h>
#include <poll.h>
#include <stdbool.h>
#include <stdio.h>
#include <stdlib.h>
#include <string.h>
#include <sys/syscall.h>
#include <unistd.h>

enum { HEAD = 19, TEXT = 200 };
enum { WATCHED = 65536 };               /* the clients whose deaths are looked for */
static const off_t LIVES = 1LL << 32;   /* where the bytes begin that clients have locked */
static const struct timespec SETTLED = {.tv_nsec = 5000000};

int is_tracing;
static char path[PATH_MAX];

/* Clients that need no look: those of this process, and those whose deaths are written. */
static atomic_bool is_known[WATCHED];

static int lock_byte(int trace, off_t byte, short type)
{
    struct flock one = {.l_type = type, .l_whence = SEEK_SET, .l_start = byte, .l_len = 1};
    while (syscall(SYS_fcntl, trace, F_OFD_SETLKW, &one) != 0)
        if (errno != EINTR)
            give_up("can't lock the trace", strerror(errno));
    return trace;
}

static int lock(int trace)
{
    return lock_byte(trace, 0, F_WRLCK);
}

void trace_unlock(int trace)
{
    lock_byte(trace, 0, F_UNLCK);
}

static int open_trace(void)
{
    int trace = (int)syscall(SYS_openat, AT_FDCWD, path, O_RDWR | O_CREAT | O_CLOEXEC, 0666);
    if (trace < 0)
        give_up("can't open the trace", path);
    return move_up(trace);
}

static void append(int trace, const char *text, int length)
{
    syscall(SYS_lseek, trace, 0, SEEK_END);
    if (syscall(SYS_write, trace, text, (size_t)length) != length)
        give_up("can't write the trace", path);
}

/* Makes the path absolute, since the program may change its directory. */
void trace_begin(void)
{
    const char *file = getenv("PTPRELOAD_TRACE");
    char folder[PATH_MAX] = "";
    if (file == NULL || *file == '\0')
        return;
    if (*file != '/' && getcwd(folder, sizeof folder) == NULL)
        give_up("no current directory", strerror(errno));
    int length = snprintf(path, sizeof path, "%s%s%s", folder, *file == '/' ? "" : "/", file);
    if ((size_t)length >= sizeof path)
        give_up("the trace's path is too long", file);
    is_tracing = 1;
}

/* Reads the number of clients from the head of the trace. */
static unsigned clients_of(int trace)
{
    char head[HEAD + 1] = "";
    unsigned clients = 0;
    long length = syscall(SYS_pread64, trace, head, HEAD, 0L);
    if (length > 0 && sscanf(head, "# clients: %7u", &clients) != 1)
        give_up("this file is no trace", path);
    return clients;
}

/* Takes the next number from the head of the trace. */
static unsigned next_client(int trace)
{
    char head[HEAD + 1];
    unsigned clients = clients_of(trace);
    snprintf(head, sizeof head, "# clients: %07u", (clients + 1) % 10000000);
    head[HEAD - 1] = '\n';
    if (syscall(SYS_pwrite64, trace, head, HEAD, 0L) != HEAD)
        give_up("can't write the trace", path);
    return clients + 1;
}

void trace_join(struct link *link)
{
    link->trace = lock(open_trace());
    link->client = next_client(link->trace);
    lock_byte(link->trace, LIVES + link->client, F_WRLCK);
    if (link->client < WATCHED)
        is_known[link->client] = 1;
    trace_unlock(link->trace);
    if (link->slot >= 0)
        atomic_store(&slots[link->slot].trace1, link->trace + 1);
}

void trace_forked(void)
{
    for (int i = 0; is_tracing && i < WATCHED; i++)
        is_known[i] = 0;
}

static int is_alive(int trace, unsigned client)
{
    struct flock look = {.l_type = F_WRLCK, .l_whence = SEEK_SET, .l_start = LIVES + client,
                         .l_len = 1};
    return syscall(SYS_fcntl, trace, F_OFD_GETLK, &look) != 0 || look.l_type != F_UNLCK;
}

/* Returns whether the trace has this text. */
static int has(int trace, const char *text)
{
    char bytes[4096];
    size_t length = strlen(text);
    off_t at = 0;
    for (;;) {
        long count = syscall(SYS_pread64, trace, bytes, sizeof bytes, at);
        if (count < (long)length)
            return 0;
        if (memmem(bytes, (size_t)count, text, length) != NULL)
            return 1;
        at += count - (long)length + 1;
    }
}

/* Writes the deaths of clients whose processes have ended without a word. */
static void write_unseen_deaths(int trace)
{
    char text[TEXT];
    unsigned clients = clients_of(trace);
    for (unsigned client = 1; client <= clients && client < WATCHED; client++) {
        if (is_known[client] || is_alive(trace, client))
            continue;
        int length = snprintf(text, sizeof text, "\nc%u die\n", client);
        if (!has(trace, text))
            append(trace, text + 1, length - 1);
        is_known[client] = 1;
    }
}

void trace_line(struct link *link, const char *line)
{
    char text[TEXT];
    int length = snprintf(text, sizeof text, "c%u %s\n", link->client, line);
    write_unseen_deaths(lock(link->trace));
    append(link->trace, text, length);
}

static int may_wait(const char *line)
{
    static const char *const WORDS[] = {"lock ", "clocklock ", "rdlock ", "clockrdlock ",
                                        "wrlock ", "clockwrlock ", "wait ", "clockwait ", "bwait "};
    for (size_t i = 0; i < sizeof WORDS / sizeof WORDS[0]; i++)
        if (strncmp(line, WORDS[i], strlen(WORDS[i])) == 0)
            return 1;
    return 0;
}

void trace_settle(struct link *link, const char *line)
{
    struct pollfd look = {.fd = link->socket, .events = POLLIN};
    struct timespec left = SETTLED;
    link->is_settled = may_wait(line) && syscall(SYS_ppoll, &look, 1, &left, NULL, 0) == 0;
    if (link->is_settled)
        trace_unlock(link->trace);
}

/* Returns the length of the `moment` line by which a call has timed out. Its deadline is the last
 * two words of its line. */
static int moment_of(const char *line, char *text, size_t size)
{
    const char *nanoseconds = strrchr(line, ' ');
    const char *seconds = nanoseconds;
    while (seconds > line && seconds[-1] != ' ')
        seconds--;
    return snprintf(text, size, "* moment %s\n", seconds);
}

void trace_answer(struct link *link, const char *line, const char *word)
{
    char text[2 * TEXT];
    int length = 0;
    if (link->is_settled)
        lock(link->trace);
    if (link->is_settled || strcmp(word, "EOWNERDEAD") == 0)
        write_unseen_deaths(link->trace);
    if (strcmp(word, "ETIMEDOUT") == 0)
        length = moment_of(line, text, TEXT);
    length += snprintf(text + length, TEXT, "> c%u %llu %s\n", link->client, link->sent, word);
    append(link->trace, text, length);
    trace_unlock(link->trace);
}

void trace_die(struct link *link)
{
    char text[TEXT];
    int length = snprintf(text, sizeof text, "c%u die\n", link->client);
    append(lock(link->trace), text, length);
}
