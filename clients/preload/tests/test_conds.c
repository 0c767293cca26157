/* Conditions. */
#include "check.h"

#include <stdatomic.h>
#include <sys/wait.h>
#include <unistd.h>

enum { WAITERS = 8 };

struct place {
    pthread_mutex_t mutex;
    pthread_cond_t cond;
    atomic_int is_open;         /* what the waiters wait for */
    atomic_int waiting, woken;
};

/* Waits until the place is open. Returns what the last wait was answered. */
static int wait_at(void *object)
{
    struct place *place = object;
    int answer = pthread_mutex_lock(&place->mutex);
    place->waiting++;
    while (answer == 0 && !place->is_open)
        answer = pthread_cond_wait(&place->cond, &place->mutex);
    place->woken++;
    if (answer == EOWNERDEAD)
        pthread_mutex_consistent(&place->mutex);
    pthread_mutex_unlock(&place->mutex);
    return answer;
}

/* Opens the place while its lock is held. */
static void open_place(struct place *place)
{
    pthread_mutex_lock(&place->mutex);
    place->is_open = 1;
}

static void wait_for_waiters(struct place *place, int count)
{
    while (place->waiting < count)
        sleep_for(1);
    pthread_mutex_lock(&place->mutex);
    pthread_mutex_unlock(&place->mutex);
}

static void test_signal(struct worker *other)
{
    struct place place = {PTHREAD_MUTEX_INITIALIZER, PTHREAD_COND_INITIALIZER, 0, 0, 0};
    IS(pthread_cond_signal(&place.cond), 0);
    IS(pthread_cond_broadcast(&place.cond), 0);
    worker_tell(other, wait_at, &place);
    wait_for_waiters(&place, 1);
    IS(pthread_cond_signal(&place.cond), 0);        /* not open yet: it waits again */
    IS(worker_waits(other), 1);
    open_place(&place);
    IS(pthread_cond_signal(&place.cond), 0);
    IS(worker_waits(other), 1);
    IS(pthread_mutex_unlock(&place.mutex), 0);
    IS(worker_answer(other), 0);
    IS(pthread_cond_destroy(&place.cond), 0);
    IS(pthread_mutex_destroy(&place.mutex), 0);
}

static void test_broadcast(void)
{
    struct place place = {PTHREAD_MUTEX_INITIALIZER, PTHREAD_COND_INITIALIZER, 0, 0, 0};
    struct worker workers[WAITERS];
    for (int i = 0; i < WAITERS; i++) {
        worker_start(&workers[i]);
        worker_tell(&workers[i], wait_at, &place);
    }
    wait_for_waiters(&place, WAITERS);
    IS(place.woken, 0);
    open_place(&place);
    IS(pthread_cond_broadcast(&place.cond), 0);
    IS(pthread_mutex_unlock(&place.mutex), 0);
    for (int i = 0; i < WAITERS; i++) {
        IS(worker_answer(&workers[i]), 0);
        worker_end(&workers[i]);
    }
    IS(place.woken, WAITERS);
    IS(pthread_cond_destroy(&place.cond), 0);
}

static void make_cond(pthread_cond_t *cond, clockid_t clock)
{
    pthread_condattr_t attr;
    pthread_condattr_init(&attr);
    IS(pthread_condattr_setclock(&attr, clock), 0);
    IS(pthread_cond_init(cond, &attr), 0);
    pthread_condattr_destroy(&attr);
}

static void test_deadlines(struct worker *other)
{
    pthread_cond_t real_cond, mono_cond;
    pthread_mutex_t mutex = PTHREAD_MUTEX_INITIALIZER;
    make_cond(&real_cond, CLOCK_REALTIME);
    make_cond(&mono_cond, CLOCK_MONOTONIC);
    IS(pthread_mutex_lock(&mutex), 0);
    struct timespec before = mono_in(0), real = real_in(40), mono = mono_in(80);
    IS(pthread_cond_timedwait(&real_cond, &mutex, &real), ETIMEDOUT);
    IS(milliseconds_since(before) >= 40, 1);
    IS(worker_do(other, trylock, &mutex), EBUSY);
    IS(pthread_cond_timedwait(&mono_cond, &mutex, &mono), ETIMEDOUT);
    IS(milliseconds_since(before) >= 80, 1);
    mono = mono_in(40);
    IS(pthread_cond_clockwait(&real_cond, &mutex, CLOCK_MONOTONIC, &mono), ETIMEDOUT);
    IS(milliseconds_since(before) >= 120, 1);
    IS(pthread_cond_clockwait(&mono_cond, &mutex, CLOCK_REALTIME, &PAST), ETIMEDOUT);
    IS(pthread_cond_timedwait(&real_cond, &mutex, &PAST), ETIMEDOUT);
    IS(pthread_cond_timedwait(&real_cond, &mutex, &NEGATIVE), ETIMEDOUT);
    IS(pthread_cond_timedwait(&real_cond, &mutex, &BAD), EINVAL);
    IS(pthread_cond_clockwait(&real_cond, &mutex, CLOCK_REALTIME, &BAD), EINVAL);
    IS(pthread_cond_clockwait(&real_cond, &mutex, CLOCK_PROCESS_CPUTIME_ID, &mono), EINVAL);
    IS(worker_do(other, trylock, &mutex), EBUSY);
    IS(pthread_mutex_unlock(&mutex), 0);
    IS(pthread_cond_destroy(&real_cond), 0);
    IS(pthread_cond_destroy(&mono_cond), 0);
    IS(pthread_mutex_destroy(&mutex), 0);
}

static int timedwait_now(pthread_cond_t *cond, pthread_mutex_t *mutex)
{
    return pthread_cond_timedwait(cond, mutex, &PAST);
}

static void test_owners(struct worker *other)
{
    struct place place = {PTHREAD_MUTEX_INITIALIZER, PTHREAD_COND_INITIALIZER, 0, 0, 0};
    pthread_mutex_t errorcheck = PTHREAD_ERRORCHECK_MUTEX_INITIALIZER_NP;
    pthread_mutex_t recursive = PTHREAD_RECURSIVE_MUTEX_INITIALIZER_NP;
    IS(timedwait_now(&place.cond, &errorcheck), EPERM);
    IS(pthread_cond_wait(&place.cond, &errorcheck), EPERM);
    UNDER(timedwait_now(&place.cond, &place.mutex), EPERM,
          "undefined in POSIX: the caller does not own the normal mutex");
    IS(pthread_mutex_lock(&recursive), 0);
    IS(timedwait_now(&place.cond, &recursive), ETIMEDOUT);
    IS(pthread_mutex_unlock(&recursive), 0);
    IS(pthread_mutex_unlock(&recursive), EPERM);
    worker_tell(other, wait_at, &place);
    wait_for_waiters(&place, 1);
    IS(pthread_mutex_lock(&errorcheck), 0);
    UNDER(timedwait_now(&place.cond, &errorcheck), EINVAL,
          "undefined in POSIX: another mutex is in use at the condition");
    IS(pthread_mutex_unlock(&errorcheck), 0);
    if (!HAS_THREAD_SANITIZER)
        UNDER(pthread_cond_destroy(&place.cond), EBUSY,
              "undefined in POSIX: a thread waits there");
    open_place(&place);
    IS(pthread_mutex_unlock(&place.mutex), 0);
    IS(pthread_cond_broadcast(&place.cond), 0);
    IS(worker_answer(other), 0);
    IS(pthread_cond_destroy(&place.cond), 0);
    UNDER(pthread_cond_signal(&place.cond), EINVAL, "undefined in POSIX: it was destroyed");
}

/* Opens the place, and ends while it owns the mutex. */
static int open_and_end(void *object)
{
    struct place *place = object;
    open_place(place);
    return pthread_cond_signal(&place->cond);
}

static void test_a_dead_owner(struct worker *other)
{
    struct place place = {.cond = PTHREAD_COND_INITIALIZER};
    pthread_mutexattr_t attr;
    pthread_mutexattr_init(&attr);
    pthread_mutexattr_setrobust(&attr, PTHREAD_MUTEX_ROBUST);
    IS(pthread_mutex_init(&place.mutex, &attr), 0);
    worker_tell(other, wait_at, &place);
    wait_for_waiters(&place, 1);
    IS(in_thread(open_and_end, &place), 0);
    IS(worker_answer(other), EOWNERDEAD);
    IS(pthread_mutex_lock(&place.mutex), 0);
    IS(pthread_mutex_unlock(&place.mutex), 0);
    IS(pthread_mutex_destroy(&place.mutex), 0);
}

static void test_other_processes(void)
{
    struct place *place = shared_memory(sizeof *place);
    pthread_mutexattr_t mutex_attr;
    pthread_condattr_t cond_attr;
    pthread_mutexattr_init(&mutex_attr);
    pthread_mutexattr_setpshared(&mutex_attr, PTHREAD_PROCESS_SHARED);
    pthread_condattr_init(&cond_attr);
    pthread_condattr_setpshared(&cond_attr, PTHREAD_PROCESS_SHARED);
    IS(pthread_mutex_init(&place->mutex, &mutex_attr), 0);
    IS(pthread_cond_init(&place->cond, &cond_attr), 0);
    pid_t child = fork();
    if (child == 0) {
        wait_for_waiters(place, 1);
        open_place(place);
        pthread_cond_signal(&place->cond);
        pthread_mutex_unlock(&place->mutex);
        _exit(0);
    }
    IS(wait_at(place), 0);
    waitpid(child, NULL, 0);
    IS(pthread_cond_destroy(&place->cond), 0);
    IS(pthread_mutex_destroy(&place->mutex), 0);
}

void test_conds(void)
{
    struct worker other;
    worker_start(&other);
    test_signal(&other);
    test_broadcast();
    test_deadlines(&other);
    test_owners(&other);
    test_a_dead_owner(&other);
    test_other_processes();
    worker_end(&other);
}
