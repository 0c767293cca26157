/* Deadlines, as the server reads them. */
#include "preload.h"

enum { SECOND = 1000000000 };
static const long long MOST = 9999999999;   /* the server's numbers have ten digits */

/* Returns the moment of CLOCK_REALTIME that is as far ahead as this one of CLOCK_MONOTONIC. It is
 * late by what passes between the two readings, and never early. */
static struct timespec real_of_monotonic(struct timespec at)
{
    struct timespec mono, real;
    clock_gettime(CLOCK_MONOTONIC, &mono);
    clock_gettime(CLOCK_REALTIME, &real);
    at.tv_sec += real.tv_sec - mono.tv_sec;
    at.tv_nsec += real.tv_nsec - mono.tv_nsec;
    if (at.tv_nsec < 0) {
        at.tv_sec--;
        at.tv_nsec += SECOND;
    } else if (at.tv_nsec >= SECOND) {
        at.tv_sec++;
        at.tv_nsec -= SECOND;
    }
    return at;
}

/* The server's `mono` begins at its start, which a client can't learn, so both clocks are sent as
 * `real`. A bad number of nanoseconds stays one, since only a call that waits is EINVAL for it. */
int deadline_of(struct deadline *deadline, clockid_t clock, const struct timespec *at)
{
    struct timespec when = *at;
    if (clock != CLOCK_REALTIME && clock != CLOCK_MONOTONIC)
        return EINVAL;
    *deadline = (struct deadline){.clock = "real", .nanoseconds = SECOND};
    if (when.tv_nsec < 0 || when.tv_nsec >= SECOND)
        return 0;
    if (when.tv_sec > MOST)
        when.tv_sec = MOST;
    if (clock == CLOCK_MONOTONIC && when.tv_sec >= 0)
        when = real_of_monotonic(when);
    if (when.tv_sec < 0)
        when = (struct timespec){.tv_sec = 0};
    deadline->seconds = when.tv_sec > MOST ? MOST : when.tv_sec;
    deadline->nanoseconds = when.tv_nsec;
    return 0;
}
