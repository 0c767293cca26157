/* The server's limits: an errno where POSIX has one, else the end of the program. */
#include "check.h"

#include <fcntl.h>
#include <signal.h>
#include <stdlib.h>
#include <string.h>
#include <sys/resource.h>
#include <sys/wait.h>
#include <unistd.h>

enum { OBJECTS = 4200, THREADS = 1100 };

/* Makes mutexes until one is refused, and destroys them. Returns why. */
static int make_many(void *unused)
{
    static pthread_mutex_t mutexes[OBJECTS];
    int answer = 0, made = 0;
    (void)unused;
    while (made < OBJECTS && (answer = pthread_mutex_init(&mutexes[made], NULL)) == 0)
        made++;
    while (made > 0)
        pthread_mutex_destroy(&mutexes[--made]);
    return answer;
}

/* Runs in a child. Returns ABORTS if SIGABRT ended it and its standard error had this text. */
static int end_of(void (*run)(void), const char *text)
{
    static char said[4096];
    int ends[2], status;
    (void)!pipe(ends);
    pid_t child = fork();
    if (child == 0) {
        dup2(ends[1], STDERR_FILENO);
        setrlimit(RLIMIT_CORE, &(struct rlimit){0, 0});
        run();
        _exit(0);
    }
    close(ends[1]);
    memset(said, 0, sizeof said);
    for (ssize_t count, length = 0; length < (ssize_t)sizeof said - 1; length += count)
        if ((count = read(ends[0], said + length, sizeof said - 1 - (size_t)length)) <= 0)
            break;
    close(ends[0]);
    waitpid(child, &status, 0);
    int is_abort = WIFSIGNALED(status) && WTERMSIG(status) == SIGABRT;
    return is_abort && strstr(said, text) != NULL ? ABORTS : 0;
}

static void *use_and_wait(void *mutex)
{
    pthread_mutex_lock(mutex);
    pthread_mutex_unlock(mutex);
    for (;;)
        pause();
    return NULL;
}

static void start_many(void)
{
    static pthread_mutex_t mutex = PTHREAD_MUTEX_INITIALIZER;
    pthread_attr_t attr;
    pthread_t thread;
    pthread_attr_init(&attr);
    pthread_attr_setstacksize(&attr, 1 << 17);
    for (int i = 0; i < THREADS; i++)
        pthread_create(&thread, &attr, use_and_wait, &mutex);
    sleep_for(20000);
}

static pthread_mutex_t held = PTHREAD_MUTEX_INITIALIZER;
static pthread_cond_t cond = PTHREAD_COND_INITIALIZER;

static void call_in_handler(int number)
{
    (void)number;
    pthread_cond_signal(&cond);
}

static void interrupt_a_call(void)
{
    struct timespec soon = real_in(2000);
    signal(SIGALRM, call_in_handler);
    ualarm(50000, 50000);
    pthread_mutex_lock(&held);
    pthread_mutex_timedlock(&held, &soon);
}

void test_limits(void)
{
    if (HAS_THREAD_SANITIZER)
        return;
    DIFFERS(in_child(make_many, NULL), 0, EAGAIN, "the profile has 4,096 objects at one time");
    if (can_have(THREADS + 200))
        UNDER(end_of(start_many, "LIMIT: 1,024 clients"), ABORTS,
              "the profile has 1,024 clients at one time");
    UNDER(end_of(interrupt_a_call, "a signal handler made a call"), ABORTS,
          "not async-signal-safe in POSIX: a thread has one call at a time");
}
