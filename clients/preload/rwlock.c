/* Read-write locks. Their attributes don't matter: a place is shared if its mapping is. */
#include "preload.h"

EXPORT int pthread_rwlock_init(pthread_rwlock_t *lock, const pthread_rwlockattr_t *attr)
{
    (void)attr;
    return object_init(lock, RWLOCK, 0, 0);
}

EXPORT int pthread_rwlock_destroy(pthread_rwlock_t *lock)
{
    return object_destroy(lock, RWLOCK);
}

EXPORT int pthread_rwlock_rdlock(pthread_rwlock_t *lock)
{
    char name[NAME];
    int error = object_find(lock, RWLOCK, name);
    return error != 0 ? error : ask("rdlock %s", name);
}

EXPORT int pthread_rwlock_tryrdlock(pthread_rwlock_t *lock)
{
    char name[NAME];
    int error = object_find(lock, RWLOCK, name);
    return error != 0 ? error : ask("tryrdlock %s", name);
}

/* Asks for a lock until a deadline, by the word of the clock call. */
static int ask_until(pthread_rwlock_t *lock, const char *word, clockid_t clock,
                     const struct timespec *at)
{
    char name[NAME];
    struct deadline until;
    int error = object_find(lock, RWLOCK, name);
    if (error == 0)
        error = deadline_of(&until, clock, at);
    if (error != 0)
        return error;
    return ask("%s %s %s %lld %ld", word, name, until.clock, until.seconds, until.nanoseconds);
}

EXPORT int pthread_rwlock_clockrdlock(pthread_rwlock_t *lock, clockid_t clock,
                                      const struct timespec *at)
{
    return ask_until(lock, "clockrdlock", clock, at);
}

EXPORT int pthread_rwlock_timedrdlock(pthread_rwlock_t *lock, const struct timespec *at)
{
    return ask_until(lock, "clockrdlock", CLOCK_REALTIME, at);
}

EXPORT int pthread_rwlock_wrlock(pthread_rwlock_t *lock)
{
    char name[NAME];
    int error = object_find(lock, RWLOCK, name);
    return error != 0 ? error : object_locked(lock, ask("wrlock %s", name));
}

EXPORT int pthread_rwlock_trywrlock(pthread_rwlock_t *lock)
{
    char name[NAME];
    int error = object_find(lock, RWLOCK, name);
    return error != 0 ? error : object_locked(lock, ask("trywrlock %s", name));
}

EXPORT int pthread_rwlock_clockwrlock(pthread_rwlock_t *lock, clockid_t clock,
                                      const struct timespec *at)
{
    return object_locked(lock, ask_until(lock, "clockwrlock", clock, at));
}

EXPORT int pthread_rwlock_timedwrlock(pthread_rwlock_t *lock, const struct timespec *at)
{
    return pthread_rwlock_clockwrlock(lock, CLOCK_REALTIME, at);
}

EXPORT int pthread_rwlock_unlock(pthread_rwlock_t *lock)
{
    char name[NAME];
    int error = object_find(lock, RWLOCK, name);
    if (error != 0)
        return error;
    object_unlocked(lock);
    return ask("rwunlock %s", name);
}
