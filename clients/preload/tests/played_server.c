#include "played_server.h"

#include <poll.h>
#include <stdatomic.h>
#include <stdio.h>
#include <stdlib.h>
#include <string.h>
#include <sys/mman.h>
#include <sys/socket.h>
#include <sys/un.h>
#include <sys/wait.h>
#include <unistd.h>

enum { LINES = 1000, CONNECTIONS = 64 };

/* What the server and the tests share. */
static struct notes {
    atomic_int lines, ends, has_word;
    char word[LINE];
    char line[LINES][LINE];
} *notes;

static pid_t server;

/* A connection of the server. */
struct connection {
    unsigned long long answered;
    size_t length;
    char bytes[LINE];
};

static void put(int socket, const char *text)
{
    (void)!write(socket, text, strlen(text));
}

/* Answers a line. Returns whether the connection goes on. */
static int answer(int socket, unsigned long long number)
{
    char text[2 * LINE];
    const char *word = notes->has_word ? notes->word : "0";
    int is_wrong = strcmp(word, "wrong number") == 0, in_pieces = strcmp(word, "in pieces") == 0;
    if (strcmp(word, "close") == 0) {
        notes->has_word = 0;
        return 0;
    }
    snprintf(text, sizeof text, "%llu %s\n", number + (unsigned)is_wrong,
             is_wrong || in_pieces ? "0" : word);
    notes->has_word = 0;
    for (const char *at = text; in_pieces && *at != '\0'; at++) {
        char piece[2] = {*at, '\0'};
        put(socket, piece);
        poll(NULL, 0, 2);
    }
    if (!in_pieces)
        put(socket, text);
    return 1;
}

/* Reads once, and answers the lines. Returns whether the connection goes on. */
static int serve(int socket, struct connection *at)
{
    ssize_t count = read(socket, at->bytes + at->length, sizeof at->bytes - at->length);
    if (count <= 0)
        return 0;
    at->length += (size_t)count;
    char *newline;
    while ((newline = memchr(at->bytes, '\n', at->length)) != NULL) {
        *newline = '\0';
        if (notes->lines < LINES)
            strcpy(notes->line[notes->lines], at->bytes);
        notes->lines++;
        at->length -= (size_t)(newline + 1 - at->bytes);
        memmove(at->bytes, newline + 1, at->length);
        if (!answer(socket, ++at->answered))
            return 0;
    }
    return 1;
}

static _Noreturn void run(int listener)
{
    static struct connection connections[CONNECTIONS];
    struct pollfd looks[CONNECTIONS] = {{.fd = listener, .events = POLLIN}};
    nfds_t count = 1;
    for (;;) {
        poll(looks, count, -1);
        for (nfds_t i = count - 1; i > 0; i--)
            if (looks[i].revents != 0 && !serve(looks[i].fd, &connections[i])) {
                notes->ends++;
                close(looks[i].fd);
                looks[i] = looks[--count];
                connections[i] = connections[count];
            }
        if (looks[0].revents != 0 && count < CONNECTIONS) {
            looks[count] = (struct pollfd){.fd = accept(listener, NULL, NULL), .events = POLLIN};
            connections[count++] = (struct connection){.answered = 0};
        }
    }
}

void play_server(const char *path)
{
    struct sockaddr_un address = {.sun_family = AF_UNIX};
    int listener = socket(AF_UNIX, SOCK_STREAM, 0);
    notes = mmap(NULL, sizeof *notes, PROT_READ | PROT_WRITE, MAP_SHARED | MAP_ANONYMOUS, -1, 0);
    if (path == NULL || strlen(path) >= sizeof address.sun_path || notes == MAP_FAILED)
        abort();
    strcpy(address.sun_path, path);
    if (bind(listener, (struct sockaddr *)&address, sizeof address) != 0
        || listen(listener, CONNECTIONS) != 0)
        abort();
    server = fork();
    if (server == 0)
        run(listener);
    close(listener);
}

void end_server(void)
{
    kill(server, SIGKILL);
    waitpid(server, NULL, 0);
}

void answer_next(const char *word)
{
    strcpy(notes->word, word);
    notes->has_word = 1;
}

int line_count(void)
{
    return notes->lines;
}

int end_count(void)
{
    return notes->ends;
}

const char *line_before(int count)
{
    int at = notes->lines - 1 - count;
    return at >= 0 && at < LINES ? notes->line[at] : "";
}

const char *latest_line(void)
{
    return line_before(0);
}

void latest_name(char name[LINE])
{
    *name = '\0';
    sscanf(latest_line(), "%*s %159s", name);
}

int is_line(const char *line, const char *pattern)
{
    while (*pattern != '\0') {
        size_t length = strspn(line, "abcdefghijklmnopqrstuvwxyz0123456789._-");
        if (strncmp(pattern, "NAME", 4) == 0 && length > 0 && length <= 32) {
            line += length;
            pattern += 4;
        } else if (*line++ != *pattern++) {
            return 0;
        }
    }
    return *line == '\0';
}
