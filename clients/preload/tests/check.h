/* What the tests share: checks, and threads that make one call after another. */
#ifndef CHECK_H
#define CHECK_H

#include <errno.h>
#include <pthread.h>
#include <sys/types.h>
#include <time.h>

/* Values that no call returns. */
enum { NOT_DONE = -2, ABORTS = -3 };

/* Whether ptserver serves the objects, and not the C library. */
extern int is_under;

void check(const char *file, int line, const char *what, int is, int plain, int under,
           const char *why);

/* This is the value, plainly and under ptserver. */
#define IS(call, value) check(__FILE__, __LINE__, #call, (call), (value), (value), NULL)

/* These are the values, plainly and under ptserver, and why they differ. */
#define DIFFERS(call, plain, under, why) \
    check(__FILE__, __LINE__, #call, (call), (plain), (under), (why))

/* Plainly this is not done at all, since it is undefined and does harm. */
#define UNDER(call, value, why) \
    (is_under ? DIFFERS(call, NOT_DONE, value, why) : not_done(#call, value, why))
void not_done(const char *what, int under, const char *why);

/* ThreadSanitizer takes the destroying of an object that is in use for a race. It has no threads in
 * a child of a process with threads, and handles a signal only once the call is over. */
#ifdef __has_feature
#define HAS_FEATURE(feature) __has_feature(feature)
#else
#define HAS_FEATURE(feature) 0
#endif
#if defined __SANITIZE_THREAD__ || HAS_FEATURE(thread_sanitizer)
enum { HAS_THREAD_SANITIZER = 1 };
#else
enum { HAS_THREAD_SANITIZER = 0 };
#endif

/* Deadlines: so many milliseconds ahead, which may be negative. */
struct timespec real_in(long milliseconds);
struct timespec mono_in(long milliseconds);
extern const struct timespec PAST, BAD, NEGATIVE;
long milliseconds_since(struct timespec mono);
void sleep_for(long milliseconds);

/* A thread that makes the calls that it is told to. */
typedef int (*call_t)(void *object);

struct worker {
    pthread_t thread;
    int calls[2], answers[2];
};

void worker_start(struct worker *worker);
void worker_tell(struct worker *worker, call_t call, void *object);
int worker_answer(struct worker *worker);
int worker_do(struct worker *worker, call_t call, void *object);
int worker_waits(struct worker *worker);    /* whether there is no answer after 60 milliseconds */
void worker_end(struct worker *worker);

/* Makes a call in a thread of its own, which then ends. */
int in_thread(call_t call, void *object);

/* Makes a call in a child process, and returns its answer. */
int in_child(call_t call, void *object);

/* Whether this process may have so many descriptors: one for each thread that makes calls. */
int can_have(unsigned descriptors);

/* Memory that is shared with the children of this process. It is zero. */
void *shared_memory(size_t size);

/* Calls, as call_t. */
int lock(void *), trylock(void *), unlock(void *), consistent(void *);
int timedlock_soon(void *), timedlock_late(void *);     /* 50 milliseconds, 10 seconds ahead */
int rdlock(void *), tryrdlock(void *), wrlock(void *), trywrlock(void *), rwunlock(void *);
int timedrdlock_soon(void *), timedwrlock_soon(void *);
int bwait(void *);

/* The tests. */
void test_mutexes(void);
void test_robust_mutexes(void);
void test_rwlocks(void);
void test_conds(void);
void test_barriers(void);
void test_threads(void);
void test_processes(void);
void test_limits(void);

#endif
