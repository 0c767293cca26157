/* Mutexes. */
#include "preload.h"

static int refuses_protocol(const pthread_mutexattr_t *attr)
{
    int protocol = PTHREAD_PRIO_NONE;
    if (attr != NULL)
        pthread_mutexattr_getprotocol(attr, &protocol);
    return protocol != PTHREAD_PRIO_NONE;
}

EXPORT int pthread_mutex_init(pthread_mutex_t *mutex, const pthread_mutexattr_t *attr)
{
    int kind = PTHREAD_MUTEX_NORMAL, robust = PTHREAD_MUTEX_STALLED;
    if (refuses_protocol(attr))
        return ENOTSUP;
    if (attr != NULL) {
        pthread_mutexattr_gettype(attr, &kind);
        pthread_mutexattr_getrobust(attr, &robust);
    }
    if (robust == PTHREAD_MUTEX_ROBUST)
        kind |= ROBUST;
    return object_init(mutex, MUTEX, kind, 0);
}

EXPORT int pthread_mutex_destroy(pthread_mutex_t *mutex)
{
    return object_destroy(mutex, MUTEX);
}

EXPORT int pthread_mutex_lock(pthread_mutex_t *mutex)
{
    char name[NAME];
    int error = object_find(mutex, MUTEX, name);
    return error != 0 ? error : object_locked(mutex, ask("lock %s", name));
}

EXPORT int pthread_mutex_trylock(pthread_mutex_t *mutex)
{
    char name[NAME];
    int error = object_find(mutex, MUTEX, name);
    return error != 0 ? error : object_locked(mutex, ask("trylock %s", name));
}

EXPORT int pthread_mutex_clocklock(pthread_mutex_t *mutex, clockid_t clock,
                                   const struct timespec *at)
{
    char name[NAME];
    struct deadline until;
    int error = object_find(mutex, MUTEX, name);
    if (error == 0)
        error = deadline_of(&until, clock, at);
    if (error != 0)
        return error;
    return object_locked(mutex, ask("clocklock %s %s %lld %ld", name, until.clock, until.seconds,
                                    until.nanoseconds));
}

EXPORT int pthread_mutex_timedlock(pthread_mutex_t *mutex, const struct timespec *at)
{
    return pthread_mutex_clocklock(mutex, CLOCK_REALTIME, at);
}

EXPORT int pthread_mutex_unlock(pthread_mutex_t *mutex)
{
    char name[NAME];
    int error = object_find(mutex, MUTEX, name);
    if (error != 0)
        return error;
    object_unlocked(mutex);
    return ask("unlock %s", name);
}

EXPORT int pthread_mutex_consistent(pthread_mutex_t *mutex)
{
    char name[NAME];
    int error = object_find(mutex, MUTEX, name);
    return error != 0 ? error : ask("consistent %s", name);
}

/* No mutex has a ceiling, since PTHREAD_PRIO_PROTECT is refused. */

EXPORT int pthread_mutex_getprioceiling(const pthread_mutex_t *mutex, int *ceiling)
{
    (void)mutex;
    (void)ceiling;
    return EINVAL;
}

EXPORT int pthread_mutex_setprioceiling(pthread_mutex_t *mutex, int ceiling, int *old)
{
    (void)mutex;
    (void)ceiling;
    (void)old;
    return EINVAL;
}
