/* Tests of the lines that the library sends and of what it makes of answers. They need no ptserver:
 * a process of their own answers at the socket, `0` or what a test wants.
 *
 *     LD_PRELOAD=out/libptpreload.so PTPRELOAD_SOCKET=PATH out/parts
 */
#include "played_server.h"

#include <errno.h>
#include <pthread.h>
#include <sched.h>
#include <stdio.h>
#include <stdlib.h>
#include <string.h>
#include <sys/mman.h>
#include <sys/resource.h>
#include <sys/wait.h>
#include <time.h>
#include <unistd.h>

static int checks, faults;

static void check(int line, const char *what, int is, int should)
{
    checks++;
    if (is == should)
        return;
    fprintf(stderr, "parts.c:%d: %s is %d, and should be %d\n", line, what, is, should);
    faults++;
}

#define IS(call, value) check(__LINE__, #call, (call), (value))

/* Checks the latest line. The pattern is that line, with NAME for the latest name. */
static void check_line(int line, const char *pattern)
{
    const char *latest = latest_line();
    checks++;
    if (is_line(latest, pattern))
        return;
    fprintf(stderr, "parts.c:%d: the line is `%s`, and should be `%s`\n", line, latest, pattern);
    faults++;
}

#define SENDS(call, value, pattern) (IS(call, value), check_line(__LINE__, pattern))

static const struct timespec SEVEN = {.tv_sec = 7, .tv_nsec = 8};

static void test_mutexes(void)
{
    pthread_mutex_t mutex = PTHREAD_MUTEX_INITIALIZER, unused = PTHREAD_MUTEX_INITIALIZER;
    SENDS(pthread_mutex_lock(&mutex), 0, "lock NAME");
    SENDS(pthread_mutex_trylock(&mutex), 0, "trylock NAME");
    SENDS(pthread_mutex_timedlock(&mutex, &SEVEN), 0, "clocklock NAME real 7 8");
    SENDS(pthread_mutex_clocklock(&mutex, CLOCK_REALTIME, &SEVEN), 0, "clocklock NAME real 7 8");
    SENDS(pthread_mutex_consistent(&mutex), 0, "consistent NAME");
    SENDS(pthread_mutex_unlock(&mutex), 0, "unlock NAME");
    SENDS(pthread_mutex_destroy(&mutex), 0, "mutex-destroy NAME");
    int before = line_count();
    IS(pthread_mutex_destroy(&unused), 0);
    IS(pthread_mutex_lock(&unused), EINVAL);
    IS(line_count(), before);
}

static void test_rwlocks(void)
{
    pthread_rwlock_t lock;
    SENDS(pthread_rwlock_init(&lock, NULL), 0, "rwlock-init NAME");
    SENDS(pthread_rwlock_rdlock(&lock), 0, "rdlock NAME");
    SENDS(pthread_rwlock_tryrdlock(&lock), 0, "tryrdlock NAME");
    SENDS(pthread_rwlock_timedrdlock(&lock, &SEVEN), 0, "clockrdlock NAME real 7 8");
    SENDS(pthread_rwlock_clockrdlock(&lock, CLOCK_REALTIME, &SEVEN), 0,
          "clockrdlock NAME real 7 8");
    SENDS(pthread_rwlock_wrlock(&lock), 0, "wrlock NAME");
    SENDS(pthread_rwlock_trywrlock(&lock), 0, "trywrlock NAME");
    SENDS(pthread_rwlock_timedwrlock(&lock, &SEVEN), 0, "clockwrlock NAME real 7 8");
    SENDS(pthread_rwlock_clockwrlock(&lock, CLOCK_REALTIME, &SEVEN), 0,
          "clockwrlock NAME real 7 8");
    SENDS(pthread_rwlock_unlock(&lock), 0, "rwunlock NAME");
    SENDS(pthread_rwlock_destroy(&lock), 0, "rwlock-destroy NAME");
}

static void test_conds(void)
{
    pthread_mutex_t mutex = PTHREAD_MUTEX_INITIALIZER;
    pthread_cond_t cond;
    IS(pthread_mutex_lock(&mutex), 0);
    SENDS(pthread_cond_init(&cond, NULL), 0, "cond-init NAME");
    SENDS(pthread_cond_signal(&cond), 0, "signal NAME");
    SENDS(pthread_cond_broadcast(&cond), 0, "broadcast NAME");
    SENDS(pthread_cond_wait(&cond, &mutex), 0, "wait NAME NAME");
    SENDS(pthread_cond_timedwait(&cond, &mutex, &SEVEN), 0, "clockwait NAME NAME real 7 8");
    SENDS(pthread_cond_clockwait(&cond, &mutex, CLOCK_REALTIME, &SEVEN), 0,
          "clockwait NAME NAME real 7 8");
    SENDS(pthread_cond_destroy(&cond), 0, "cond-destroy NAME");
}

static void test_barriers(void)
{
    pthread_barrier_t barrier;
    SENDS(pthread_barrier_init(&barrier, NULL, 12), 0, "barrier-init NAME 12");
    SENDS(pthread_barrier_wait(&barrier), 0, "bwait NAME");
    answer_next("SERIAL");
    IS(pthread_barrier_wait(&barrier), PTHREAD_BARRIER_SERIAL_THREAD);
    SENDS(pthread_barrier_destroy(&barrier), 0, "barrier-destroy NAME");
}

static void test_attributes(void)
{
    static const struct {
        int kind, robust;
        const char *line;
    } ROWS[] = {
        {PTHREAD_MUTEX_NORMAL, PTHREAD_MUTEX_STALLED, "mutex-init NAME normal stalled"},
        {PTHREAD_MUTEX_DEFAULT, PTHREAD_MUTEX_ROBUST, "mutex-init NAME normal robust"},
        {PTHREAD_MUTEX_RECURSIVE, PTHREAD_MUTEX_STALLED, "mutex-init NAME recursive stalled"},
        {PTHREAD_MUTEX_ERRORCHECK, PTHREAD_MUTEX_ROBUST, "mutex-init NAME errorcheck robust"},
        {PTHREAD_MUTEX_ADAPTIVE_NP, PTHREAD_MUTEX_STALLED, "mutex-init NAME normal stalled"},
    };
    pthread_mutex_t mutex;
    pthread_mutexattr_t attr;
    for (size_t i = 0; i < sizeof ROWS / sizeof ROWS[0]; i++) {
        pthread_mutexattr_init(&attr);
        pthread_mutexattr_settype(&attr, ROWS[i].kind);
        pthread_mutexattr_setrobust(&attr, ROWS[i].robust);
        SENDS(pthread_mutex_init(&mutex, &attr), 0, ROWS[i].line);
        IS(pthread_mutex_destroy(&mutex), 0);
    }
    pthread_mutexattr_setprotocol(&attr, PTHREAD_PRIO_INHERIT);
    int before = line_count();
    IS(pthread_mutex_init(&mutex, &attr), ENOTSUP);
    pthread_mutexattr_setprotocol(&attr, PTHREAD_PRIO_PROTECT);
    IS(pthread_mutex_init(&mutex, &attr), ENOTSUP);
    IS(line_count(), before);
}

static void test_deadlines(void)
{
    static const struct {
        struct timespec at;
        const char *line;
    } ROWS[] = {
        {{.tv_sec = 7, .tv_nsec = 1000000000}, "clocklock NAME real 0 1000000000"},
        {{.tv_sec = 7, .tv_nsec = -1}, "clocklock NAME real 0 1000000000"},
        {{.tv_sec = -7, .tv_nsec = 5}, "clocklock NAME real 0 0"},
        {{.tv_sec = 99999999999, .tv_nsec = 5}, "clocklock NAME real 9999999999 5"},
    };
    pthread_mutex_t mutex = PTHREAD_MUTEX_INITIALIZER;
    struct timespec mono, real;
    long long seconds;
    for (size_t i = 0; i < sizeof ROWS / sizeof ROWS[0]; i++)
        SENDS(pthread_mutex_timedlock(&mutex, &ROWS[i].at), 0, ROWS[i].line);
    clock_gettime(CLOCK_MONOTONIC, &mono);
    clock_gettime(CLOCK_REALTIME, &real);
    mono.tv_sec += 100;
    IS(pthread_mutex_clocklock(&mutex, CLOCK_MONOTONIC, &mono), 0);
    IS(sscanf(latest_line(), "clocklock %*s real %lld", &seconds), 1);
    IS(seconds - real.tv_sec >= 100 && seconds - real.tv_sec <= 103, 1);
    int before = line_count();
    IS(pthread_mutex_clocklock(&mutex, CLOCK_PROCESS_CPUTIME_ID, &SEVEN), EINVAL);
    IS(line_count(), before);
}

static void test_answers(void)
{
    static const struct {
        const char *word;
        int value;
    } ROWS[] = {
        {"EPERM", EPERM}, {"EINVAL", EINVAL}, {"EBUSY", EBUSY}, {"EAGAIN", EAGAIN},
        {"EDEADLK", EDEADLK}, {"ETIMEDOUT", ETIMEDOUT}, {"EOWNERDEAD", EOWNERDEAD},
        {"ENOTRECOVERABLE", ENOTRECOVERABLE}, {"ENOMEM", ENOMEM}, {"0", 0}, {"in pieces", 0},
    };
    pthread_mutex_t mutex;
    IS(pthread_mutex_init(&mutex, NULL), 0);
    for (size_t i = 0; i < sizeof ROWS / sizeof ROWS[0]; i++) {
        answer_next(ROWS[i].word);
        IS(pthread_mutex_lock(&mutex), ROWS[i].value);
    }
    SENDS(pthread_mutex_init(&mutex, NULL), 0, "mutex-init NAME normal stalled");
    IS(is_line(line_before(1), "mutex-destroy NAME"), 1);   /* its memory has a new use */
    IS(pthread_mutex_destroy(&mutex), 0);
    answer_next("EAGAIN");
    IS(pthread_mutex_init(&mutex, NULL), EAGAIN);
    IS(pthread_mutex_lock(&mutex), EINVAL);
    answer_next("ENOMEM");
    IS(pthread_mutex_init(&mutex, NULL), ENOMEM);
}

static void test_names(void)
{
    char one[LINE], other[LINE], again[LINE], start[LINE];
    pthread_mutex_t mutex;
    pthread_mutex_t *shared = mmap(NULL, 4096, PROT_READ | PROT_WRITE, MAP_SHARED | MAP_ANONYMOUS,
                                   -1, 0);
    IS(pthread_mutex_init(&mutex, NULL), 0);
    snprintf(start, sizeof start, "p%d.%llx.", (int)getpid(), (unsigned long long)(size_t)&mutex);
    latest_name(one);
    IS(strncmp(one, start, strlen(start)), 0);
    IS(strlen(one) <= 30, 1);
    IS(pthread_mutex_destroy(&mutex), 0);
    answer_next("EBUSY");
    IS(pthread_mutex_init(&mutex, NULL), 0);
    latest_name(other);
    IS(strcmp(one, other) != 0, 1);
    IS(pthread_mutex_lock(shared), 0);
    latest_name(one);
    IS(one[0], 's');
    IS(pthread_mutex_lock(shared + 1), 0);
    latest_name(other);
    IS(strcmp(one, other) != 0, 1);
    if (fork() == 0) {
        pthread_mutex_unlock(shared);
        _exit(0);
    }
    wait(NULL);
    latest_name(again);
    IS(strcmp(one, again), 0);
}

static void *lock_and_end(void *mutex)
{
    pthread_mutex_lock(mutex);
    return NULL;
}

/* A thread's first line says its priority. Only root may have one under SCHED_FIFO. */
static void test_priorities(void)
{
    pthread_mutex_t mutex = PTHREAD_MUTEX_INITIALIZER;
    pthread_t thread;
    pthread_attr_t attr;
    struct sched_param param = {.sched_priority = 50};
    pthread_attr_init(&attr);
    pthread_attr_setinheritsched(&attr, PTHREAD_EXPLICIT_SCHED);
    pthread_attr_setschedpolicy(&attr, SCHED_FIFO);
    pthread_attr_setschedparam(&attr, &param);
    IS(pthread_mutex_init(&mutex, NULL), 0);
    if (pthread_create(&thread, &attr, lock_and_end, &mutex) == 0) {
        pthread_join(thread, NULL);
        IS(is_line(line_before(1), "hello 50"), 1);
    }
    pthread_create(&thread, NULL, lock_and_end, &mutex);
    pthread_join(thread, NULL);
    IS(is_line(line_before(1), "hello 10"), 1);
}

static void test_ends(void)
{
    pthread_mutex_t mutex = PTHREAD_MUTEX_INITIALIZER;
    pthread_t thread;
    int ends = end_count();
    pthread_create(&thread, NULL, lock_and_end, &mutex);
    pthread_join(thread, NULL);
    IS(end_count() - ends, 1);
    if (fork() == 0)
        exit(pthread_mutex_trylock(&mutex));
    wait(NULL);
    IS(end_count() - ends, 3);      /* the child's, and the one that holds its copy for ever */
    IS(pthread_mutex_unlock(&mutex), 0);
    IS(pthread_mutex_lock(&mutex), 0);
    if (fork() == 0)
        exit(pthread_mutex_trylock(&mutex));
    wait(NULL);
    check_line(__LINE__, "trylock NAME");
    IS(is_line(line_before(1), "lock NAME"), 1);
    IS(is_line(line_before(2), "mutex-init NAME normal stalled"), 1);
    IS(is_line(line_before(3), "hello 10"), 1);
    IS(end_count() - ends, 4);
}

/* Returns whether SIGABRT ends a child one of whose lines is answered so, and it says this. The
 * first line that it sends is its hello, and the third and fourth make a mutex and lock it. */
static int ends_by(int line, const char *word, const char *text)
{
    pthread_mutex_t used = PTHREAD_MUTEX_INITIALIZER, mutex = PTHREAD_MUTEX_INITIALIZER;
    char said[1024] = "";
    int ends[2], status;
    if (pipe(ends) != 0)
        return 0;
    pid_t child = fork();
    if (child == 0) {
        dup2(ends[1], STDERR_FILENO);
        setrlimit(RLIMIT_CORE, &(struct rlimit){0, 0});
        if (line > 1)
            pthread_mutex_init(&used, NULL);
        if (line > 3)
            pthread_mutex_init(&mutex, NULL);
        answer_next(word);
        _exit(pthread_mutex_lock(&mutex));
    }
    close(ends[1]);
    for (ssize_t count = 1, length = 0; count > 0; length += count)
        count = read(ends[0], said + length, sizeof said - 1 - (size_t)length);
    close(ends[0]);
    waitpid(child, &status, 0);
    return WIFSIGNALED(status) && WTERMSIG(status) == SIGABRT && strstr(said, text) != NULL;
}

static void test_refusals(void)
{
    static const struct {
        int line;
        const char *word, *text;
    } ROWS[] = {
        {1, "LIMIT", "LIMIT: 1,024 clients live at the server"},
        {1, "ENOMEM", "ENOMEM: the server has no memory for a client"},
        {3, "EAGAIN", "LIMIT: no room at the server, which holds 4,096 objects"},
        {4, "FULL", "FULL: the server's history has no room"},
        {4, "SYNTAX", "SYNTAX"},
        {4, "LONG", "128 bytes"},
        {4, "DEAD", "DEAD"},
        {4, "NOHELLO", "NOHELLO"},
        {4, "BLOCKED", "BLOCKED"},
        {4, "wrong number", "the connection to the server is lost"},
        {4, "no such word", "the connection to the server is lost"},
        {4, "close", "the connection to the server is lost"},
    };
    for (size_t i = 0; i < sizeof ROWS / sizeof ROWS[0]; i++)
        IS(ends_by(ROWS[i].line, ROWS[i].word, ROWS[i].text), 1);
}

int main(void)
{
    play_server(getenv("PTPRELOAD_SOCKET"));
    test_mutexes();
    test_rwlocks();
    test_conds();
    test_barriers();
    test_attributes();
    test_deadlines();
    test_answers();
    test_names();
    test_priorities();
    test_ends();
    test_refusals();
    end_server();
    printf("%d checks without a server: %s\n", checks,
           faults == 0 ? "all are as they should be" : "FAILED");
    return faults != 0;
}
