/* Conditions. */
#include "preload.h"

EXPORT int pthread_cond_init(pthread_cond_t *cond, const pthread_condattr_t *attr)
{
    clockid_t clock = CLOCK_REALTIME;
    if (attr != NULL)
        pthread_condattr_getclock(attr, &clock);
    return object_init(cond, COND, clock == CLOCK_MONOTONIC ? MONOTONIC : 0, 0);
}

EXPORT int pthread_cond_destroy(pthread_cond_t *cond)
{
    return object_destroy(cond, COND);
}

EXPORT int pthread_cond_signal(pthread_cond_t *cond)
{
    char name[NAME];
    int error = object_find(cond, COND, name);
    return error != 0 ? error : ask("signal %s", name);
}

EXPORT int pthread_cond_broadcast(pthread_cond_t *cond)
{
    char name[NAME];
    int error = object_find(cond, COND, name);
    return error != 0 ? error : ask("broadcast %s", name);
}

/* Returns whether a wait that is answered so has its mutex, as it had before. */
static int has_mutex_after(int answer)
{
    return answer != ENOTRECOVERABLE;
}

/* Waits, until a deadline if there is one. */
static int wait_at(pthread_cond_t *cond, pthread_mutex_t *mutex, const struct deadline *until)
{
    char name[NAME], mutex_name[NAME];
    int answer = object_find(cond, COND, name);
    if (answer == 0)
        answer = object_find(mutex, MUTEX, mutex_name);
    if (answer != 0)
        return answer;
    int was_noted = object_unlocked(mutex);
    if (until == NULL)
        answer = ask("wait %s %s", name, mutex_name);
    else
        answer = ask("clockwait %s %s %s %lld %ld", name, mutex_name, until->clock,
                     until->seconds, until->nanoseconds);
    if (was_noted && has_mutex_after(answer))
        object_locked(mutex, 0);
    return answer;
}

EXPORT int pthread_cond_wait(pthread_cond_t *cond, pthread_mutex_t *mutex)
{
    return wait_at(cond, mutex, NULL);
}

EXPORT int pthread_cond_clockwait(pthread_cond_t *cond, pthread_mutex_t *mutex, clockid_t clock,
                                  const struct timespec *at)
{
    struct deadline until;
    int error = deadline_of(&until, clock, at);
    return error != 0 ? error : wait_at(cond, mutex, &until);
}

EXPORT int pthread_cond_timedwait(pthread_cond_t *cond, pthread_mutex_t *mutex,
                                  const struct timespec *at)
{
    char name[NAME];
    int error = object_find(cond, COND, name);
    if (error != 0)
        return error;
    int is_monotonic = ((struct body *)cond)->kind == MONOTONIC;
    return pthread_cond_clockwait(cond, mutex, is_monotonic ? CLOCK_MONOTONIC : CLOCK_REALTIME,
                                  at);
}
