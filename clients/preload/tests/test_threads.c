/* Threads: their ends, signals, errno, and many of them. */
#include "check.h"

#include <signal.h>
#include <stdatomic.h>
#include <stdlib.h>

enum { DEATHS = 1000, MANY = 1000, FEW = 200 };

static void make_robust(pthread_mutex_t *mutex)
{
    pthread_mutexattr_t attr;
    pthread_mutexattr_init(&attr);
    pthread_mutexattr_setrobust(&attr, PTHREAD_MUTEX_ROBUST);
    IS(pthread_mutex_init(mutex, &attr), 0);
}

static void *lock_and_end(void *mutex)
{
    pthread_mutex_lock(mutex);
    return NULL;
}

/* Once a thread is joined, it is dead for everybody. */
static void test_deaths(void)
{
    pthread_mutex_t mutex;
    int told = 0;
    make_robust(&mutex);
    for (int i = 0; i < DEATHS; i++) {
        pthread_t thread;
        if (pthread_create(&thread, NULL, lock_and_end, &mutex) != 0)
            break;
        pthread_join(thread, NULL);
        told += pthread_mutex_trylock(&mutex) == EOWNERDEAD;
        pthread_mutex_consistent(&mutex);
        pthread_mutex_unlock(&mutex);
    }
    IS(told, DEATHS);
    IS(pthread_mutex_destroy(&mutex), 0);
}

static pthread_mutex_t mutex = PTHREAD_MUTEX_INITIALIZER;
static pthread_cond_t cond = PTHREAD_COND_INITIALIZER;
static int waiting, is_open;

static void *wait_for_all(void *unused)
{
    (void)unused;
    pthread_mutex_lock(&mutex);
    waiting++;
    while (!is_open)
        pthread_cond_wait(&cond, &mutex);
    waiting--;
    pthread_mutex_unlock(&mutex);
    return NULL;
}

static int waiting_now(void)
{
    pthread_mutex_lock(&mutex);
    int count = waiting;
    pthread_mutex_unlock(&mutex);
    return count;
}

/* A thousand threads wait at one condition, and one broadcast wakes all of them. */
static void test_many(void)
{
    static pthread_t threads[MANY];
    pthread_attr_t attr;
    int made = 0, wanted = can_have(MANY + 200) ? MANY : FEW;
    pthread_attr_init(&attr);
    pthread_attr_setstacksize(&attr, 1 << 17);
    while (made < wanted && pthread_create(&threads[made], &attr, wait_for_all, NULL) == 0)
        made++;
    IS(made, wanted);
    while (waiting_now() < made)
        sleep_for(2);
    pthread_mutex_lock(&mutex);
    is_open = 1;
    pthread_mutex_unlock(&mutex);
    IS(pthread_cond_broadcast(&cond), 0);
    for (int i = 0; i < made; i++)
        pthread_join(threads[i], NULL);
    IS(waiting, 0);
}

static void lock_in_destructor(void *object)
{
    pthread_mutex_lock(object);
    pthread_mutex_unlock(object);
}

static int set_a_value(void *object)
{
    static pthread_key_t key;
    pthread_key_create(&key, lock_in_destructor);
    pthread_setspecific(key, object);
    return pthread_mutex_trylock(object) + pthread_mutex_unlock(object);
}

/* The program's own destructors may use its mutexes, and leave nothing behind. */
static void test_destructors(void)
{
    pthread_mutex_t used = PTHREAD_MUTEX_INITIALIZER;
    IS(in_thread(set_a_value, &used), 0);
    IS(pthread_mutex_trylock(&used), 0);
    IS(pthread_mutex_unlock(&used), 0);
    IS(pthread_mutex_destroy(&used), 0);
}

static atomic_int handled;

static void handle(int number)
{
    (void)number;
    handled++;
}

/* A handler runs while a call waits, and the call goes on. */
static void test_signals(void)
{
    pthread_mutex_t held = PTHREAD_MUTEX_INITIALIZER;
    struct worker other;
    signal(SIGUSR1, handle);
    worker_start(&other);
    IS(pthread_mutex_lock(&held), 0);
    worker_tell(&other, lock, &held);
    IS(worker_waits(&other), 1);
    IS(pthread_kill(other.thread, SIGUSR1), 0);
    for (int i = 0; i < 1000 && !handled; i++)
        sleep_for(5);
    IS(handled, 1);
    IS(worker_waits(&other), 1);
    IS(pthread_mutex_unlock(&held), 0);
    IS(worker_answer(&other), 0);
    IS(worker_do(&other, unlock, &held), 0);
    worker_end(&other);
    IS(pthread_mutex_destroy(&held), 0);
}

static void test_errno(void)
{
    pthread_mutex_t used = PTHREAD_MUTEX_INITIALIZER;
    errno = ENOTTY;
    IS(pthread_mutex_lock(&used), 0);
    IS(timedlock_soon(&used), ETIMEDOUT);
    IS(pthread_mutex_unlock(&used), 0);
    IS(pthread_mutex_destroy(&used), 0);
    IS(errno, ENOTTY);
}

void test_threads(void)
{
    test_deaths();
    test_many();
    test_destructors();
    test_signals();
    test_errno();
}
