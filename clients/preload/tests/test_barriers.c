/* Barriers. */
#include "check.h"

#include <sys/wait.h>
#include <unistd.h>

enum { ROUNDS = 3, THREADS = 3 };

static void test_counts(void)
{
    static const char *const LIMIT = "POSIX allows more errors: the limit is the profile's";
    pthread_barrier_t barrier;
    IS(pthread_barrier_init(&barrier, NULL, 0), EINVAL);
    IS(pthread_barrier_init(&barrier, NULL, 1), 0);
    IS(pthread_barrier_wait(&barrier), PTHREAD_BARRIER_SERIAL_THREAD);
    IS(pthread_barrier_wait(&barrier), PTHREAD_BARRIER_SERIAL_THREAD);
    IS(pthread_barrier_destroy(&barrier), 0);
    UNDER(pthread_barrier_wait(&barrier), EINVAL, "undefined in POSIX: it was destroyed");
    DIFFERS(pthread_barrier_init(&barrier, NULL, 1025), 0, EINVAL, LIMIT);
    IS(pthread_barrier_init(&barrier, NULL, 1024), 0);
    IS(pthread_barrier_destroy(&barrier), 0);
}

static void test_rounds(struct worker *workers)
{
    pthread_barrier_t barrier;
    IS(pthread_barrier_init(&barrier, NULL, THREADS), 0);
    for (int round = 0; round < ROUNDS; round++) {
        worker_tell(&workers[0], bwait, &barrier);
        worker_tell(&workers[1], bwait, &barrier);
        IS(worker_waits(&workers[0]) + worker_waits(&workers[1]), 2);
        if (round == 0 && !HAS_THREAD_SANITIZER)
            UNDER(pthread_barrier_destroy(&barrier), EBUSY,
                  "undefined in POSIX: threads wait there");
        int serials = pthread_barrier_wait(&barrier) == PTHREAD_BARRIER_SERIAL_THREAD;
        for (int i = 0; i < 2; i++)
            serials += worker_answer(&workers[i]) == PTHREAD_BARRIER_SERIAL_THREAD;
        IS(serials, 1);
    }
    IS(pthread_barrier_destroy(&barrier), 0);
}

static void test_other_processes(void)
{
    pthread_barrier_t *barrier = shared_memory(sizeof *barrier);
    pthread_barrierattr_t attr;
    pthread_barrierattr_init(&attr);
    pthread_barrierattr_setpshared(&attr, PTHREAD_PROCESS_SHARED);
    IS(pthread_barrier_init(barrier, &attr, THREADS), 0);
    pid_t child = fork();
    if (child == 0) {
        pid_t grandchild = fork();
        pthread_barrier_wait(barrier);
        if (grandchild != 0)
            waitpid(grandchild, NULL, 0);
        _exit(0);
    }
    int answer = pthread_barrier_wait(barrier);
    IS(answer == 0 || answer == PTHREAD_BARRIER_SERIAL_THREAD, 1);
    waitpid(child, NULL, 0);
    IS(pthread_barrier_destroy(barrier), 0);
}

void test_barriers(void)
{
    struct worker workers[2];
    worker_start(&workers[0]);
    worker_start(&workers[1]);
    test_counts();
    test_rounds(workers);
    test_other_processes();
    worker_end(&workers[0]);
    worker_end(&workers[1]);
}
