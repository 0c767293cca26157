/* Runs the tests of the library: plainly, with the C library's own objects, and under ptserver.
 *
 *     out/test_functions [--differences]                     plainly
 *     tools/run-under out/test_functions [--differences]     under ptserver
 *
 * With --differences it also prints what differs between the two, and why.
 */
#include "check.h"

#include <poll.h>
#include <stdio.h>
#include <stdlib.h>
#include <string.h>
#include <sys/mman.h>
#include <sys/resource.h>
#include <sys/wait.h>
#include <unistd.h>

int is_under;
static int checks, faults, shows_differences;

const struct timespec PAST = {.tv_sec = 5};
const struct timespec BAD = {.tv_sec = 5, .tv_nsec = 1000000000};
const struct timespec NEGATIVE = {.tv_sec = -5};

static const char *word_of(int answer)
{
    if (answer == PTHREAD_BARRIER_SERIAL_THREAD)
        return "SERIAL";
    if (answer == NOT_DONE)
        return "not done";
    if (answer == ABORTS)
        return "it ends the program";
    return answer == ENOTSUP ? "ENOTSUP" : strerrorname_np(answer);
}

static void show_difference(const char *what, int plain, int under, const char *why)
{
    if (shows_differences && plain != under)
        printf("%s: %s; under ptserver %s: %s\n", what, word_of(plain), word_of(under), why);
}

void check(const char *file, int line, const char *what, int is, int plain, int under,
           const char *why)
{
    int should = is_under ? under : plain;
    checks++;
    show_difference(what, plain, under, why);
    if (is == should)
        return;
    fprintf(stderr, "%s:%d: %s is %d, and should be %d\n", file, line, what, is, should);
    faults++;
}

void not_done(const char *what, int under, const char *why)
{
    show_difference(what, NOT_DONE, under, why);
}

static struct timespec ahead(clockid_t clock, long milliseconds)
{
    struct timespec at;
    clock_gettime(clock, &at);
    long nanoseconds = at.tv_nsec + milliseconds % 1000 * 1000000;
    at.tv_sec += milliseconds / 1000 + nanoseconds / 1000000000;
    at.tv_nsec = nanoseconds % 1000000000;
    return at;
}

struct timespec real_in(long milliseconds)
{
    return ahead(CLOCK_REALTIME, milliseconds);
}

struct timespec mono_in(long milliseconds)
{
    return ahead(CLOCK_MONOTONIC, milliseconds);
}

long milliseconds_since(struct timespec mono)
{
    struct timespec at = mono_in(0);
    return (at.tv_sec - mono.tv_sec) * 1000 + (at.tv_nsec - mono.tv_nsec) / 1000000;
}

void sleep_for(long milliseconds)
{
    struct timespec left = {milliseconds / 1000, milliseconds % 1000 * 1000000};
    while (nanosleep(&left, &left) != 0)
        ;
}

struct told {
    call_t call;
    void *object;
};

/* Pipes tell a worker what to do, so that it makes no other calls than those. */
static void *work(void *argument)
{
    struct worker *worker = argument;
    struct told told;
    while (read(worker->calls[0], &told, sizeof told) == sizeof told && told.call != NULL) {
        int answer = told.call(told.object);
        (void)!write(worker->answers[1], &answer, sizeof answer);
    }
    return NULL;
}

void worker_start(struct worker *worker)
{
    if (pipe(worker->calls) != 0 || pipe(worker->answers) != 0
        || pthread_create(&worker->thread, NULL, work, worker) != 0)
        abort();
}

void worker_tell(struct worker *worker, call_t call, void *object)
{
    struct told told = {call, object};
    (void)!write(worker->calls[1], &told, sizeof told);
}

int worker_answer(struct worker *worker)
{
    int answer = -2;
    (void)!read(worker->answers[0], &answer, sizeof answer);
    return answer;
}

int worker_do(struct worker *worker, call_t call, void *object)
{
    worker_tell(worker, call, object);
    return worker_answer(worker);
}

int worker_waits(struct worker *worker)
{
    struct pollfd look = {.fd = worker->answers[0], .events = POLLIN};
    return poll(&look, 1, 60) == 0;
}

void worker_end(struct worker *worker)
{
    worker_tell(worker, NULL, NULL);
    pthread_join(worker->thread, NULL);
    for (int i = 0; i < 2; i++) {
        close(worker->calls[i]);
        close(worker->answers[i]);
    }
}

int in_thread(call_t call, void *object)
{
    struct worker worker;
    worker_start(&worker);
    int answer = worker_do(&worker, call, object);
    worker_end(&worker);
    return answer;
}

int in_child(call_t call, void *object)
{
    int status = 0;
    pid_t child = fork();
    if (child == 0)
        exit(call(object) & 255);
    if (child < 0 || waitpid(child, &status, 0) != child || !WIFEXITED(status))
        return -3;
    return WEXITSTATUS(status) == 255 ? -1 : WEXITSTATUS(status);
}

int can_have(unsigned descriptors)
{
    struct rlimit limit;
    getrlimit(RLIMIT_NOFILE, &limit);
    if (limit.rlim_cur < descriptors && descriptors <= limit.rlim_max) {
        limit.rlim_cur = descriptors;
        setrlimit(RLIMIT_NOFILE, &limit);
    }
    return limit.rlim_cur >= descriptors;
}

void *shared_memory(size_t size)
{
    void *memory = mmap(NULL, size, PROT_READ | PROT_WRITE, MAP_SHARED | MAP_ANONYMOUS, -1, 0);
    if (memory == MAP_FAILED)
        abort();
    return memory;
}

int lock(void *mutex) { return pthread_mutex_lock(mutex); }
int trylock(void *mutex) { return pthread_mutex_trylock(mutex); }
int unlock(void *mutex) { return pthread_mutex_unlock(mutex); }
int consistent(void *mutex) { return pthread_mutex_consistent(mutex); }
int rdlock(void *rwlock) { return pthread_rwlock_rdlock(rwlock); }
int tryrdlock(void *rwlock) { return pthread_rwlock_tryrdlock(rwlock); }
int wrlock(void *rwlock) { return pthread_rwlock_wrlock(rwlock); }
int trywrlock(void *rwlock) { return pthread_rwlock_trywrlock(rwlock); }
int rwunlock(void *rwlock) { return pthread_rwlock_unlock(rwlock); }
int bwait(void *barrier) { return pthread_barrier_wait(barrier); }

int timedlock_soon(void *mutex)
{
    struct timespec soon = real_in(50);
    return pthread_mutex_timedlock(mutex, &soon);
}

int timedlock_late(void *mutex)
{
    struct timespec late = real_in(10000);
    return pthread_mutex_timedlock(mutex, &late);
}

int timedrdlock_soon(void *rwlock)
{
    struct timespec soon = real_in(50);
    return pthread_rwlock_timedrdlock(rwlock, &soon);
}

int timedwrlock_soon(void *rwlock)
{
    struct timespec soon = real_in(50);
    return pthread_rwlock_timedwrlock(rwlock, &soon);
}

int main(int count, char **words)
{
    is_under = getenv("PTPRELOAD_SOCKET") != NULL;
    shows_differences = count > 1 && strcmp(words[1], "--differences") == 0;
    setvbuf(stdout, NULL, _IOLBF, 0);
    test_mutexes();
    test_robust_mutexes();
    test_rwlocks();
    test_conds();
    test_barriers();
    test_threads();
    test_processes();
    test_limits();
    printf("%d checks %s: %s\n", checks, is_under ? "under ptserver" : "plainly",
           faults == 0 ? "all are as they should be" : "FAILED");
    return faults != 0;
}
