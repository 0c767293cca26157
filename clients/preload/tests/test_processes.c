/* Processes: what a forked child has, and what their ends do. */
#include "check.h"

#include <signal.h>
#include <stdatomic.h>
#include <stdlib.h>
#include <sys/wait.h>
#include <unistd.h>

enum { PROCESSES = 4, ROUNDS = 200, DEATHS = 200 };

/* A child's copy of a private object is locked if the thread that forked held it. */
static void test_private_objects(struct worker *other)
{
    static const char *const COPY = "glibc compares thread ids; the child's thread is a copy";
    pthread_mutex_t normal = PTHREAD_MUTEX_INITIALIZER, others = PTHREAD_MUTEX_INITIALIZER;
    pthread_mutex_t errorcheck = PTHREAD_ERRORCHECK_MUTEX_INITIALIZER_NP;
    pthread_mutex_t recursive = PTHREAD_RECURSIVE_MUTEX_INITIALIZER_NP;
    pthread_rwlock_t rwlock = PTHREAD_RWLOCK_INITIALIZER;
    IS(pthread_mutex_lock(&normal), 0);
    IS(pthread_mutex_lock(&errorcheck), 0);
    IS(pthread_mutex_lock(&recursive), 0);
    IS(pthread_rwlock_wrlock(&rwlock), 0);
    IS(worker_do(other, lock, &others), 0);
    IS(in_child(trylock, &normal), EBUSY);
    IS(in_child(unlock, &normal), 0);
    DIFFERS(in_child(unlock, &errorcheck), EPERM, 0, COPY);
    DIFFERS(in_child(unlock, &recursive), EPERM, 0, COPY);
    IS(in_child(rwunlock, &rwlock), 0);
    IS(in_child(trylock, &others), EBUSY);
    IS(pthread_mutex_trylock(&normal), EBUSY);
    IS(pthread_mutex_unlock(&normal), 0);
    IS(pthread_mutex_unlock(&errorcheck), 0);
    IS(pthread_mutex_unlock(&recursive), 0);
    IS(pthread_rwlock_unlock(&rwlock), 0);
    IS(worker_do(other, unlock, &others), 0);
    IS(in_child(trylock, &normal), 0);
    IS(pthread_mutex_trylock(&normal), 0);
}

static int fork_and_unlock(void *mutex)
{
    return in_child(unlock, mutex);
}

/* The same over two generations, the first of which does not use the object. */
static void test_grandchildren(void)
{
    pthread_mutex_t mutex = PTHREAD_MUTEX_INITIALIZER;
    IS(pthread_mutex_lock(&mutex), 0);
    IS(in_child(fork_and_unlock, &mutex), 0);
    IS(pthread_mutex_unlock(&mutex), 0);
}

static int do_nothing(void *unused)
{
    (void)unused;
    return 0;
}

/* A child that ends doesn't end its parent's thread. */
static void test_a_child_that_ends(struct worker *other)
{
    pthread_mutexattr_t attr;
    pthread_mutex_t mutex;
    pthread_mutexattr_init(&attr);
    pthread_mutexattr_setrobust(&attr, PTHREAD_MUTEX_ROBUST);
    IS(pthread_mutex_init(&mutex, &attr), 0);
    IS(pthread_mutex_lock(&mutex), 0);
    IS(in_child(do_nothing, NULL), 0);
    IS(worker_do(other, trylock, &mutex), EBUSY);
    IS(pthread_mutex_unlock(&mutex), 0);
    IS(pthread_mutex_destroy(&mutex), 0);
}

/* Zeroed shared memory that several processes use for the first time at once. */
static void test_first_use(void)
{
    struct shared {
        pthread_mutex_t mutex;
        int count;
    } *shared = shared_memory(sizeof *shared);
    pid_t children[PROCESSES];
    for (int i = 0; i < PROCESSES; i++)
        if ((children[i] = fork()) == 0) {
            for (int round = 0; round < ROUNDS; round++) {
                pthread_mutex_lock(&shared->mutex);
                shared->count++;
                pthread_mutex_unlock(&shared->mutex);
            }
            _exit(0);
        }
    for (int i = 0; i < PROCESSES; i++)
        waitpid(children[i], NULL, 0);
    IS(shared->count, PROCESSES * ROUNDS);
    IS(pthread_mutex_destroy(&shared->mutex), 0);
}

/* A process that calls exit while its other thread owns a robust mutex, and a third waits. */
static int exit_with_threads(void *robust)
{
    static pthread_mutex_t stalled = PTHREAD_MUTEX_INITIALIZER;
    static struct worker owner, waiter;
    worker_start(&owner);
    worker_start(&waiter);
    int answer = worker_do(&owner, lock, robust) + pthread_mutex_lock(&stalled);
    worker_tell(&waiter, lock, &stalled);
    worker_waits(&waiter);
    return answer;
}

static void test_exit(void)
{
    pthread_mutex_t *mutex = shared_memory(sizeof *mutex);
    pthread_mutexattr_t attr;
    pthread_mutexattr_init(&attr);
    pthread_mutexattr_setrobust(&attr, PTHREAD_MUTEX_ROBUST);
    pthread_mutexattr_setpshared(&attr, PTHREAD_PROCESS_SHARED);
    IS(pthread_mutex_init(mutex, &attr), 0);
    IS(in_child(exit_with_threads, mutex), 0);
    IS(pthread_mutex_lock(mutex), EOWNERDEAD);      /* by lock, since the server may be late */
    IS(pthread_mutex_consistent(mutex), 0);
    IS(pthread_mutex_unlock(mutex), 0);
    IS(pthread_mutex_destroy(mutex), 0);
}

static int fork_many(void *is_done)
{
    while (!*(atomic_int *)is_done) {
        pid_t child = fork();
        if (child == 0) {
            sleep_for(3);
            _exit(0);
        }
        waitpid(child, NULL, 0);
    }
    return 0;
}

/* While one thread forks, others end as owners: no child keeps a connection of theirs. */
static void test_forks_and_deaths(struct worker *other)
{
    pthread_mutexattr_t attr;
    pthread_mutex_t mutex;
    atomic_int is_done = 0;
    int told = 0;
    pthread_mutexattr_init(&attr);
    pthread_mutexattr_setrobust(&attr, PTHREAD_MUTEX_ROBUST);
    IS(pthread_mutex_init(&mutex, &attr), 0);
    worker_tell(other, fork_many, &is_done);
    for (int i = 0; i < DEATHS; i++) {
        in_thread(lock, &mutex);
        told += pthread_mutex_trylock(&mutex) == EOWNERDEAD;
        pthread_mutex_consistent(&mutex);
        pthread_mutex_unlock(&mutex);
    }
    is_done = 1;
    IS(told, DEATHS);
    IS(worker_answer(other), 0);
    IS(pthread_mutex_destroy(&mutex), 0);
}

/* A child that was killed while it waited gets nothing. */
static void test_a_dead_waiter(void)
{
    pthread_mutex_t *mutex = shared_memory(sizeof *mutex);
    pthread_mutexattr_t attr;
    pthread_mutexattr_init(&attr);
    pthread_mutexattr_setpshared(&attr, PTHREAD_PROCESS_SHARED);
    IS(pthread_mutex_init(mutex, &attr), 0);
    IS(pthread_mutex_lock(mutex), 0);
    pid_t child = fork();
    if (child == 0)
        _exit(pthread_mutex_lock(mutex));
    sleep_for(60);
    kill(child, SIGKILL);
    waitpid(child, NULL, 0);
    sleep_for(300);         /* the server may learn of the death late */
    IS(pthread_mutex_unlock(mutex), 0);
    IS(pthread_mutex_trylock(mutex), 0);
    IS(pthread_mutex_unlock(mutex), 0);
    IS(pthread_mutex_destroy(mutex), 0);
}

void test_processes(void)
{
    struct worker other;
    worker_start(&other);
    test_private_objects(&other);
    test_grandchildren();
    test_a_child_that_ends(&other);
    test_first_use();
    if (!HAS_THREAD_SANITIZER)
        test_exit();
    test_forks_and_deaths(&other);
    test_a_dead_waiter();
    worker_end(&other);
}
