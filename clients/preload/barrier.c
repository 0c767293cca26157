/* Barriers. */
#include "preload.h"

EXPORT int pthread_barrier_init(pthread_barrier_t *barrier, const pthread_barrierattr_t *attr,
                                unsigned count)
{
    (void)attr;
    return object_init(barrier, BARRIER, 0, count);
}

EXPORT int pthread_barrier_destroy(pthread_barrier_t *barrier)
{
    return object_destroy(barrier, BARRIER);
}

EXPORT int pthread_barrier_wait(pthread_barrier_t *barrier)
{
    char name[NAME];
    int error = object_find(barrier, BARRIER, name);
    if (error != 0)
        return error;
    int answer = ask("bwait %s", name);
    return answer == SERIAL ? PTHREAD_BARRIER_SERIAL_THREAD : answer;
}
