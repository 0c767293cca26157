/* Read-write locks. */
#include "check.h"

static const char *const CHECKED = "POSIX allows both: the lock can be had at once";
static const char *const READER = "POSIX allows both: the caller itself reads";
static const char *const HELD = "undefined in POSIX; the profile says EBUSY";
static const char *const LIMIT = "POSIX lets the implementation choose this limit";
static const char *const HOLDER = "undefined in POSIX; the profile says EPERM";

static void test_readers(struct worker *other)
{
    pthread_rwlock_t rwlock;
    IS(pthread_rwlock_init(&rwlock, NULL), 0);
    IS(pthread_rwlock_rdlock(&rwlock), 0);
    IS(pthread_rwlock_tryrdlock(&rwlock), 0);
    IS(worker_do(other, rdlock, &rwlock), 0);
    IS(worker_do(other, timedrdlock_soon, &rwlock), 0);
    IS(pthread_rwlock_trywrlock(&rwlock), EBUSY);
    DIFFERS(timedwrlock_soon(&rwlock), ETIMEDOUT, EDEADLK, READER);
    UNDER(pthread_rwlock_wrlock(&rwlock), EDEADLK, READER);
    DIFFERS(pthread_rwlock_destroy(&rwlock), 0, EBUSY, HELD);
    for (int i = 0; i < 2; i++) {
        IS(pthread_rwlock_unlock(&rwlock), 0);
        IS(worker_do(other, rwunlock, &rwlock), 0);
    }
    UNDER(pthread_rwlock_unlock(&rwlock), EPERM, HOLDER);
    IS(pthread_rwlock_trywrlock(&rwlock), 0);
    IS(pthread_rwlock_unlock(&rwlock), 0);
    for (int i = 0; i < 255; i++)
        pthread_rwlock_rdlock(&rwlock);
    DIFFERS(pthread_rwlock_rdlock(&rwlock), 0, EAGAIN, LIMIT);
    for (int i = 0; i < (is_under ? 255 : 256); i++)
        pthread_rwlock_unlock(&rwlock);
    IS(pthread_rwlock_destroy(&rwlock), 0);
    UNDER(pthread_rwlock_rdlock(&rwlock), EINVAL, "undefined in POSIX: it was destroyed");
}

static void test_a_writer(struct worker *other)
{
    static pthread_rwlock_t rwlock = PTHREAD_RWLOCK_INITIALIZER;
    IS(pthread_rwlock_wrlock(&rwlock), 0);
    IS(pthread_rwlock_wrlock(&rwlock), EDEADLK);
    IS(pthread_rwlock_rdlock(&rwlock), EDEADLK);
    IS(pthread_rwlock_tryrdlock(&rwlock), EBUSY);
    IS(pthread_rwlock_trywrlock(&rwlock), EBUSY);
    IS(worker_do(other, tryrdlock, &rwlock), EBUSY);
    IS(worker_do(other, trywrlock, &rwlock), EBUSY);
    UNDER(worker_do(other, rwunlock, &rwlock), EPERM, HOLDER);
    worker_tell(other, rdlock, &rwlock);
    IS(worker_waits(other), 1);
    IS(pthread_rwlock_unlock(&rwlock), 0);
    IS(worker_answer(other), 0);
    IS(pthread_rwlock_trywrlock(&rwlock), EBUSY);
    IS(worker_do(other, rwunlock, &rwlock), 0);
    IS(pthread_rwlock_destroy(&rwlock), 0);
}

static void test_deadlines(struct worker *other)
{
    pthread_rwlock_t rwlock = PTHREAD_RWLOCK_INITIALIZER;
    struct timespec before = mono_in(0), mono = mono_in(40), real = real_in(80);
    DIFFERS(pthread_rwlock_timedrdlock(&rwlock, &BAD), EINVAL, 0, CHECKED);
    if (is_under)
        IS(pthread_rwlock_unlock(&rwlock), 0);
    IS(pthread_rwlock_timedwrlock(&rwlock, &PAST), 0);
    IS(pthread_rwlock_unlock(&rwlock), 0);
    IS(worker_do(other, wrlock, &rwlock), 0);
    IS(pthread_rwlock_timedrdlock(&rwlock, &PAST), ETIMEDOUT);
    IS(pthread_rwlock_timedwrlock(&rwlock, &NEGATIVE), ETIMEDOUT);
    IS(pthread_rwlock_timedrdlock(&rwlock, &BAD), EINVAL);
    IS(pthread_rwlock_timedwrlock(&rwlock, &BAD), EINVAL);
    IS(pthread_rwlock_clockrdlock(&rwlock, CLOCK_MONOTONIC, &mono), ETIMEDOUT);
    IS(milliseconds_since(before) >= 40, 1);
    IS(pthread_rwlock_clockwrlock(&rwlock, CLOCK_REALTIME, &real), ETIMEDOUT);
    IS(milliseconds_since(before) >= 80, 1);
    IS(pthread_rwlock_clockrdlock(&rwlock, CLOCK_REALTIME, &PAST), ETIMEDOUT);
    IS(pthread_rwlock_clockwrlock(&rwlock, CLOCK_MONOTONIC, &mono), ETIMEDOUT);
    IS(pthread_rwlock_clockrdlock(&rwlock, CLOCK_THREAD_CPUTIME_ID, &mono), EINVAL);
    IS(pthread_rwlock_clockwrlock(&rwlock, CLOCK_THREAD_CPUTIME_ID, &mono), EINVAL);
    IS(worker_do(other, rwunlock, &rwlock), 0);
    IS(pthread_rwlock_destroy(&rwlock), 0);
}

/* Under ptserver all threads have one priority, so a waiting writer holds back new readers. */
static void test_a_waiting_writer(struct worker *other)
{
    pthread_rwlock_t rwlock = PTHREAD_RWLOCK_INITIALIZER;
    IS(pthread_rwlock_rdlock(&rwlock), 0);
    worker_tell(other, wrlock, &rwlock);
    IS(worker_waits(other), 1);
    DIFFERS(in_thread(tryrdlock, &rwlock), 0, EBUSY,
            "POSIX lets the implementation choose: a writer waits; the profile has it first");
    IS(pthread_rwlock_tryrdlock(&rwlock), 0);
    IS(pthread_rwlock_unlock(&rwlock), 0);
    IS(pthread_rwlock_unlock(&rwlock), 0);
    if (!is_under)
        IS(pthread_rwlock_unlock(&rwlock), 0);      /* that of the thread that has ended */
    IS(worker_answer(other), 0);
    IS(worker_do(other, rwunlock, &rwlock), 0);
    IS(pthread_rwlock_destroy(&rwlock), 0);
}

/* A lock of a thread that has ended stays held. */
static void test_a_dead_holder(void)
{
    pthread_rwlock_t rwlock = PTHREAD_RWLOCK_INITIALIZER;
    IS(in_thread(rdlock, &rwlock), 0);
    IS(pthread_rwlock_trywrlock(&rwlock), EBUSY);
    IS(pthread_rwlock_tryrdlock(&rwlock), 0);
    IS(pthread_rwlock_unlock(&rwlock), 0);
    IS(pthread_rwlock_destroy(&rwlock), 0);
}

void test_rwlocks(void)
{
    struct worker other;
    worker_start(&other);
    test_readers(&other);
    test_a_writer(&other);
    test_deadlines(&other);
    test_a_waiting_writer(&other);
    test_a_dead_holder();
    worker_end(&other);
}
