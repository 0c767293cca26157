/* A mutex outlives the process that owns it: the first session of the README, in two processes.
 *
 *     ptserver serve --socket /tmp/pt.sock &
 *     cc -std=gnu11 -o first_session first_session.c
 *     ./first_session /tmp/pt.sock
 */
#include "ptclient.h"

#include <sys/wait.h>

static int failed(const char *what, int answer)
{
    fprintf(stderr, "first_session: %s is answered %d\n", what, answer);
    return 1;
}

static int start(struct pt_client *client, const char *path, int priority)
{
    int error = pt_connect(client, path);
    if (error != 0) {
        fprintf(stderr, "first_session: %s: %s\n", path, strerror(error));
        return 1;
    }
    int answer = pt_hello(client, priority);
    return answer == 0 ? 0 : failed("hello", answer);
}

/* Runs process A, which locks the mutex and ends without unlocking it. */
static int run_a(const char *path, int is_locked)
{
    struct pt_client a;
    if (start(&a, path, 10) != 0)
        return 1;
    int answer = pt_mutex_init(&a, "m", "normal", "robust");
    if (answer != 0)
        return failed("A's mutex-init", answer);
    answer = pt_mutex_lock(&a, "m");
    if (answer != 0)
        return failed("A's lock", answer);
    puts("A has locked m");
    fflush(stdout);
    (void)!write(is_locked, "x", 1);
    nanosleep(&(struct timespec){.tv_nsec = 100000000}, NULL);
    puts("A ends without unlocking m");
    return 0;
}

/* Runs process B, which waits for the mutex and learns that its owner died. */
static int run_b(const char *path)
{
    struct pt_client b;
    if (start(&b, path, 20) != 0)
        return 1;
    puts("B waits for m");
    fflush(stdout);
    int answer = pt_mutex_lock(&b, "m");
    if (answer != EOWNERDEAD)
        return failed("B's lock", answer);
    puts("B has m, with EOWNERDEAD");
    answer = pt_mutex_consistent(&b, "m");
    if (answer != 0)
        return failed("B's consistent", answer);
    answer = pt_mutex_unlock(&b, "m");
    if (answer != 0)
        return failed("B's unlock", answer);
    puts("B has made m consistent, and unlocked it");
    pt_close(&b);
    return 0;
}

int main(int count, char **words)
{
    if (count != 2) {
        fprintf(stderr, "usage: first_session SOCKET\n");
        return 2;
    }
    int ends[2];
    if (pipe(ends) != 0)
        return 1;
    pid_t child = fork();
    if (child < 0)
        return 1;
    if (child == 0)
        return run_a(words[1], ends[1]);
    close(ends[1]);
    char byte;
    if (read(ends[0], &byte, 1) != 1)
        return 1;
    int result = run_b(words[1]);
    waitpid(child, NULL, 0);
    return result;
}
