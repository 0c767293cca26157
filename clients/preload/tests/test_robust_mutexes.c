/* Robust mutexes: what the next owner learns when an owner's thread or process ends. */
#include "check.h"

#include <signal.h>
#include <sys/wait.h>
#include <unistd.h>

static void make(pthread_mutex_t *mutex, int kind)
{
    pthread_mutexattr_t attr;
    pthread_mutexattr_init(&attr);
    pthread_mutexattr_settype(&attr, kind);
    pthread_mutexattr_setrobust(&attr, PTHREAD_MUTEX_ROBUST);
    pthread_mutexattr_setpshared(&attr, PTHREAD_PROCESS_SHARED);
    IS(pthread_mutex_init(mutex, &attr), 0);
    pthread_mutexattr_destroy(&attr);
}

static void test_consistent(void)
{
    pthread_mutex_t mutex, stalled = PTHREAD_MUTEX_INITIALIZER;
    IS(pthread_mutex_lock(&stalled), 0);
    IS(pthread_mutex_consistent(&stalled), EINVAL);
    make(&mutex, PTHREAD_MUTEX_NORMAL);
    IS(pthread_mutex_lock(&mutex), 0);
    IS(pthread_mutex_consistent(&mutex), EINVAL);
    IS(pthread_mutex_unlock(&mutex), 0);
    IS(in_thread(lock, &mutex), 0);
    IS(pthread_mutex_trylock(&mutex), EOWNERDEAD);
    DIFFERS(in_thread(consistent, &mutex), 0, EPERM, "undefined in POSIX; the profile says EPERM");
    if (is_under)
        IS(pthread_mutex_consistent(&mutex), 0);
    IS(pthread_mutex_consistent(&mutex), EINVAL);
}

static void test_repair(struct worker *other)
{
    pthread_mutex_t mutex;
    make(&mutex, PTHREAD_MUTEX_NORMAL);
    IS(in_thread(lock, &mutex), 0);
    IS(in_thread(lock, &mutex), EOWNERDEAD);
    IS(timedlock_soon(&mutex), EOWNERDEAD);
    IS(worker_do(other, trylock, &mutex), EBUSY);
    IS(pthread_mutex_consistent(&mutex), 0);
    worker_tell(other, lock, &mutex);
    IS(pthread_mutex_unlock(&mutex), 0);
    IS(worker_answer(other), 0);
    IS(worker_do(other, unlock, &mutex), 0);
    IS(pthread_mutex_destroy(&mutex), 0);
}

static void test_not_recoverable(struct worker *other)
{
    pthread_mutex_t mutex;
    make(&mutex, PTHREAD_MUTEX_NORMAL);
    IS(in_thread(lock, &mutex), 0);
    IS(pthread_mutex_lock(&mutex), EOWNERDEAD);
    worker_tell(other, lock, &mutex);
    IS(worker_waits(other), 1);
    IS(pthread_mutex_unlock(&mutex), 0);
    IS(worker_answer(other), ENOTRECOVERABLE);
    IS(pthread_mutex_lock(&mutex), ENOTRECOVERABLE);
    IS(timedlock_soon(&mutex), ENOTRECOVERABLE);
    IS(pthread_mutex_consistent(&mutex), EINVAL);
    IS(pthread_mutex_trylock(&mutex), ENOTRECOVERABLE);
    DIFFERS(timedlock_soon(&mutex), ETIMEDOUT, ENOTRECOVERABLE,
            "glibc's fault: its trylock keeps a mutex that is not recoverable");
    IS(pthread_mutex_destroy(&mutex), 0);
}

static void test_kinds(void)
{
    pthread_mutex_t mutex;
    make(&mutex, PTHREAD_MUTEX_ERRORCHECK);
    IS(in_thread(lock, &mutex), 0);
    IS(pthread_mutex_lock(&mutex), EOWNERDEAD);
    IS(pthread_mutex_lock(&mutex), EDEADLK);
    DIFFERS(pthread_mutex_trylock(&mutex), EDEADLK, EBUSY, "glibc's fault: POSIX has EBUSY alone");
    IS(pthread_mutex_consistent(&mutex), 0);
    IS(pthread_mutex_unlock(&mutex), 0);
    IS(pthread_mutex_unlock(&mutex), EPERM);
    IS(pthread_mutex_destroy(&mutex), 0);
    make(&mutex, PTHREAD_MUTEX_RECURSIVE);
    IS(in_thread(lock, &mutex), 0);
    IS(pthread_mutex_lock(&mutex), EOWNERDEAD);
    IS(pthread_mutex_lock(&mutex), 0);
    DIFFERS(pthread_mutex_unlock(&mutex), ENOTRECOVERABLE, 0,
            "glibc's fault: it still holds the mutex");
    IS(pthread_mutex_consistent(&mutex), 0);
    IS(pthread_mutex_unlock(&mutex), 0);
    IS(pthread_mutex_destroy(&mutex), 0);
}

/* A waiting thread gets the mutex of an owner that ends. */
static void test_a_waiter(struct worker *other)
{
    struct worker owner;
    pthread_mutex_t mutex;
    make(&mutex, PTHREAD_MUTEX_NORMAL);
    worker_start(&owner);
    IS(worker_do(&owner, lock, &mutex), 0);
    worker_tell(other, lock, &mutex);
    IS(worker_waits(other), 1);
    worker_end(&owner);
    IS(worker_answer(other), EOWNERDEAD);
    IS(worker_do(other, consistent, &mutex), 0);
    IS(worker_do(other, unlock, &mutex), 0);
    IS(pthread_mutex_destroy(&mutex), 0);
}

/* Kills a child that owns the mutex. */
static void kill_owner(pthread_mutex_t *mutex)
{
    int ends[2];
    char byte;
    (void)!pipe(ends);
    pid_t child = fork();
    if (child == 0) {
        pthread_mutex_lock(mutex);
        (void)!write(ends[1], "x", 1);
        for (;;)
            pause();
    }
    (void)!read(ends[0], &byte, 1);
    kill(child, SIGKILL);
    waitpid(child, NULL, 0);
    close(ends[0]);
    close(ends[1]);
}

static void test_processes_that_end(void)
{
    pthread_mutex_t *mutex = shared_memory(sizeof *mutex);
    make(mutex, PTHREAD_MUTEX_NORMAL);
    IS(in_child(lock, mutex), 0);
    IS(pthread_mutex_trylock(mutex), EOWNERDEAD);   /* the child has called exit: no delay */
    IS(pthread_mutex_consistent(mutex), 0);
    IS(pthread_mutex_unlock(mutex), 0);
    kill_owner(mutex);
    IS(pthread_mutex_lock(mutex), EOWNERDEAD);      /* by lock, since the server may be late */
    IS(pthread_mutex_consistent(mutex), 0);
    IS(pthread_mutex_unlock(mutex), 0);
    IS(pthread_mutex_destroy(mutex), 0);
}

void test_robust_mutexes(void)
{
    struct worker other;
    worker_start(&other);
    test_consistent();
    test_repair(&other);
    test_not_recoverable(&other);
    test_kinds();
    test_a_waiter(&other);
    test_processes_that_end();
    worker_end(&other);
}
