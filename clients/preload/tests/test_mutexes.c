/* Mutexes. */
#include "check.h"

#include <string.h>

static const char *const BY_ANOTHER = "undefined in POSIX; the profile says EPERM";
static const char *const LIMIT = "POSIX lets the implementation choose this limit";

static void make(pthread_mutex_t *mutex, int kind, int robust)
{
    pthread_mutexattr_t attr;
    pthread_mutexattr_init(&attr);
    pthread_mutexattr_settype(&attr, kind);
    pthread_mutexattr_setrobust(&attr, robust);
    IS(pthread_mutex_init(mutex, &attr), 0);
    pthread_mutexattr_destroy(&attr);
}

static void test_normal(struct worker *other)
{
    pthread_mutex_t mutex;
    IS(pthread_mutex_init(&mutex, NULL), 0);
    IS(pthread_mutex_lock(&mutex), 0);
    IS(pthread_mutex_trylock(&mutex), EBUSY);
    IS(timedlock_soon(&mutex), ETIMEDOUT);
    IS(worker_do(other, trylock, &mutex), EBUSY);
    worker_tell(other, lock, &mutex);
    IS(worker_waits(other), 1);
    IS(pthread_mutex_unlock(&mutex), 0);
    IS(worker_answer(other), 0);
    IS(pthread_mutex_trylock(&mutex), EBUSY);
    IS(pthread_mutex_destroy(&mutex), EBUSY);
    IS(worker_do(other, unlock, &mutex), 0);
    IS(pthread_mutex_destroy(&mutex), 0);
    IS(pthread_mutex_lock(&mutex), EINVAL);
    IS(pthread_mutex_init(&mutex, NULL), 0);
    IS(pthread_mutex_trylock(&mutex), 0);
    DIFFERS(worker_do(other, unlock, &mutex), 0, EPERM, BY_ANOTHER);
    if (is_under)
        IS(pthread_mutex_unlock(&mutex), 0);
    IS(pthread_mutex_destroy(&mutex), 0);
}

static void test_errorcheck(struct worker *other)
{
    pthread_mutex_t mutex;
    make(&mutex, PTHREAD_MUTEX_ERRORCHECK, PTHREAD_MUTEX_STALLED);
    IS(pthread_mutex_unlock(&mutex), EPERM);
    IS(pthread_mutex_lock(&mutex), 0);
    IS(pthread_mutex_lock(&mutex), EDEADLK);
    IS(pthread_mutex_trylock(&mutex), EBUSY);
    IS(timedlock_soon(&mutex), EDEADLK);
    IS(worker_do(other, unlock, &mutex), EPERM);
    IS(worker_do(other, timedlock_soon, &mutex), ETIMEDOUT);
    IS(pthread_mutex_unlock(&mutex), 0);
    IS(pthread_mutex_unlock(&mutex), EPERM);
    IS(pthread_mutex_destroy(&mutex), 0);
}

static void test_recursive(struct worker *other)
{
    pthread_mutex_t mutex;
    make(&mutex, PTHREAD_MUTEX_RECURSIVE, PTHREAD_MUTEX_STALLED);
    for (int i = 0; i < 3; i++)
        IS(pthread_mutex_lock(&mutex), 0);
    IS(pthread_mutex_trylock(&mutex), 0);
    IS(timedlock_soon(&mutex), 0);
    for (int i = 0; i < 4; i++)
        IS(pthread_mutex_unlock(&mutex), 0);
    IS(worker_do(other, trylock, &mutex), EBUSY);
    IS(pthread_mutex_unlock(&mutex), 0);
    IS(pthread_mutex_unlock(&mutex), EPERM);
    IS(worker_do(other, trylock, &mutex), 0);
    IS(worker_do(other, unlock, &mutex), 0);
    for (int i = 0; i < 255; i++)
        pthread_mutex_lock(&mutex);
    DIFFERS(pthread_mutex_lock(&mutex), 0, EAGAIN, LIMIT);
    for (int i = 0; i < (is_under ? 255 : 256); i++)
        pthread_mutex_unlock(&mutex);
    IS(pthread_mutex_destroy(&mutex), 0);
}

static void test_initialisers(struct worker *other)
{
    static pthread_mutex_t normal = PTHREAD_MUTEX_INITIALIZER;
    static pthread_mutex_t recursive = PTHREAD_RECURSIVE_MUTEX_INITIALIZER_NP;
    static pthread_mutex_t errorcheck = PTHREAD_ERRORCHECK_MUTEX_INITIALIZER_NP;
    static pthread_mutex_t adaptive = PTHREAD_ADAPTIVE_MUTEX_INITIALIZER_NP;
    static pthread_mutex_t unused = PTHREAD_MUTEX_INITIALIZER;
    IS(worker_do(other, trylock, &normal), 0);
    IS(pthread_mutex_trylock(&normal), EBUSY);
    IS(worker_do(other, unlock, &normal), 0);
    IS(pthread_mutex_lock(&recursive), 0);
    IS(pthread_mutex_lock(&recursive), 0);
    IS(pthread_mutex_lock(&errorcheck), 0);
    IS(pthread_mutex_lock(&errorcheck), EDEADLK);
    IS(pthread_mutex_lock(&adaptive), 0);
    IS(pthread_mutex_trylock(&adaptive), EBUSY);
    IS(pthread_mutex_unlock(&adaptive), 0);
    IS(pthread_mutex_destroy(&unused), 0);
}

static void test_deadlines(struct worker *other)
{
    pthread_mutex_t mutex = PTHREAD_MUTEX_INITIALIZER;
    struct timespec before = mono_in(0), real = real_in(40), mono = mono_in(40);
    IS(pthread_mutex_timedlock(&mutex, &PAST), 0);
    IS(pthread_mutex_unlock(&mutex), 0);
    IS(pthread_mutex_timedlock(&mutex, &BAD), 0);
    IS(pthread_mutex_timedlock(&mutex, &BAD), EINVAL);
    IS(pthread_mutex_timedlock(&mutex, &PAST), ETIMEDOUT);
    IS(pthread_mutex_timedlock(&mutex, &NEGATIVE), ETIMEDOUT);
    IS(pthread_mutex_timedlock(&mutex, &real), ETIMEDOUT);
    IS(milliseconds_since(before) >= 40, 1);
    IS(pthread_mutex_clocklock(&mutex, CLOCK_MONOTONIC, &mono), ETIMEDOUT);
    IS(pthread_mutex_clocklock(&mutex, CLOCK_REALTIME, &PAST), ETIMEDOUT);
    IS(pthread_mutex_clocklock(&mutex, CLOCK_MONOTONIC, &BAD), EINVAL);
    IS(pthread_mutex_clocklock(&mutex, CLOCK_PROCESS_CPUTIME_ID, &mono), EINVAL);
    before = mono_in(0);
    mono = mono_in(40);
    IS(pthread_mutex_clocklock(&mutex, CLOCK_MONOTONIC, &mono), ETIMEDOUT);
    IS(milliseconds_since(before) >= 40, 1);
    worker_tell(other, timedlock_late, &mutex);
    IS(pthread_mutex_unlock(&mutex), 0);
    IS(worker_answer(other), 0);
    IS(worker_do(other, unlock, &mutex), 0);
    IS(pthread_mutex_destroy(&mutex), 0);
}

static int init_with(int (*set)(pthread_mutexattr_t *, int), int value)
{
    pthread_mutex_t mutex;
    pthread_mutexattr_t attr;
    pthread_mutexattr_init(&attr);
    set(&attr, value);
    int answer = pthread_mutex_init(&mutex, &attr);
    if (answer == 0)
        pthread_mutex_destroy(&mutex);
    pthread_mutexattr_destroy(&attr);
    return answer;
}

static void test_attributes(void)
{
    static const char *const PROTOCOLS = "ptserver has no priority inheritance and no ceilings";
    pthread_mutex_t mutex = PTHREAD_MUTEX_INITIALIZER;
    int ceiling;
    IS(init_with(pthread_mutexattr_settype, PTHREAD_MUTEX_DEFAULT), 0);
    IS(init_with(pthread_mutexattr_setpshared, PTHREAD_PROCESS_SHARED), 0);
    IS(init_with(pthread_mutexattr_setprotocol, PTHREAD_PRIO_NONE), 0);
    DIFFERS(init_with(pthread_mutexattr_setprotocol, PTHREAD_PRIO_INHERIT), 0, ENOTSUP, PROTOCOLS);
    DIFFERS(init_with(pthread_mutexattr_setprotocol, PTHREAD_PRIO_PROTECT), 0, ENOTSUP, PROTOCOLS);
    IS(pthread_mutex_getprioceiling(&mutex, &ceiling), EINVAL);
    IS(pthread_mutex_setprioceiling(&mutex, 10, &ceiling), EINVAL);
}

static void test_memory_used_again(void)
{
    static pthread_mutex_t memory;
    for (int i = 0; i < 3; i++) {
        IS(pthread_mutex_init(&memory, NULL), 0);
        IS(pthread_mutex_lock(&memory), 0);
        IS(pthread_mutex_unlock(&memory), 0);
    }
    memset(&memory, 0, sizeof memory);
    IS(pthread_mutex_lock(&memory), 0);
    IS(pthread_mutex_init(&memory, NULL), 0);
    IS(pthread_mutex_lock(&memory), 0);
    IS(pthread_mutex_unlock(&memory), 0);
    IS(pthread_mutex_destroy(&memory), 0);
}

void test_mutexes(void)
{
    struct worker other;
    worker_start(&other);
    test_normal(&other);
    test_errorcheck(&other);
    test_recursive(&other);
    test_initialisers(&other);
    test_deadlines(&other);
    test_attributes();
    test_memory_used_again();
    worker_end(&other);
}
