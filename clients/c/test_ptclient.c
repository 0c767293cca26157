/* Tests of ptclient.h against a running server. `tools/try-clients` builds and runs them.
 *
 *     ./test_ptclient SOCKET     the server runs with `--clock lines`, and has no objects yet
 */
#include "ptclient.h"

static int faults;

static void check(const char *what, int line, int is, int should)
{
    if (is == should)
        return;
    fprintf(stderr, "test_ptclient.c:%d: %s is %d, and should be %d\n", line, what, is, should);
    faults++;
}

#define IS(call, value) check(#call, __LINE__, (call), (value))

static const struct timespec FIVE = {.tv_sec = 5};

static void test_mutexes(struct pt_client *a, struct pt_client *b)
{
    IS(pt_mutex_init(a, "m", "normal", "stalled"), 0);
    IS(pt_mutex_lock(a, "m"), 0);
    IS(pt_mutex_trylock(b, "m"), EBUSY);
    IS(pt_mutex_unlock(b, "m"), EPERM);
    IS(pt_mutex_consistent(a, "m"), EINVAL);
    IS(pt_mutex_unlock(a, "m"), 0);
    IS(pt_mutex_timedlock(a, "m", FIVE), 0);
    IS(pt_mutex_init(b, "m", "normal", "stalled"), EBUSY);
    IS(pt_mutex_init(b, "e", "errorcheck", "stalled"), 0);
    IS(pt_mutex_lock(b, "e"), 0);
    IS(pt_mutex_lock(b, "e"), EDEADLK);
    IS(pt_mutex_lock(b, "nothing"), EINVAL);
    IS(pt_mutex_destroy(b, "m"), EBUSY);
    IS(pt_mutex_unlock(a, "m"), 0);
    IS(pt_mutex_destroy(b, "m"), 0);
}

static void test_read_write_locks(struct pt_client *a, struct pt_client *b)
{
    IS(pt_rwlock_init(a, "r"), 0);
    IS(pt_rwlock_rdlock(a, "r"), 0);
    IS(pt_rwlock_tryrdlock(b, "r"), 0);
    IS(pt_rwlock_timedrdlock(b, "r", FIVE), 0);
    IS(pt_rwlock_trywrlock(a, "r"), EBUSY);
    IS(pt_rwlock_wrlock(a, "r"), EDEADLK);
    IS(pt_rwlock_timedwrlock(a, "r", FIVE), EDEADLK);
    IS(pt_rwlock_unlock(a, "r"), 0);
    IS(pt_rwlock_unlock(a, "r"), EPERM);
    IS(pt_rwlock_destroy(a, "r"), EBUSY);
}

static void test_conditions(struct pt_client *a, struct pt_client *b)
{
    IS(pt_mutex_init(a, "n", "recursive", "stalled"), 0);
    IS(pt_cond_init(a, "c"), 0);
    IS(pt_cond_wait(a, "c", "n"), EPERM);
    IS(pt_cond_timedwait(a, "c", "n", FIVE), EPERM);
    IS(pt_mutex_lock(a, "n"), 0);
    IS(pt_send(a, "wait c n"), 0);
    IS(pt_answer(a, 50), PT_WAITING);
    IS(pt_mutex_lock(a, "n"), PT_LOST);
    IS(pt_cond_signal(b, "c"), 0);
    IS(pt_answer(a, 5000), 0);
    IS(pt_cond_broadcast(b, "c"), 0);
    IS(pt_cond_destroy(b, "c"), 0);
    IS(pt_mutex_unlock(a, "n"), 0);
}

static void test_barriers(struct pt_client *a, struct pt_client *b)
{
    IS(pt_barrier_init(a, "b", 0), EINVAL);
    IS(pt_barrier_init(a, "b", 2), 0);
    IS(pt_send(a, "bwait b"), 0);
    IS(pt_answer(a, 50), PT_WAITING);
    IS(pt_barrier_wait(b, "b"), PT_SERIAL);
    IS(pt_answer(a, 5000), 0);
    IS(pt_barrier_destroy(b, "b"), 0);
}

static void test_moments(struct pt_client *a, struct pt_client *b)
{
    IS(pt_mutex_init(a, "t", "normal", "stalled"), 0);
    IS(pt_mutex_lock(a, "t"), 0);
    IS(pt_send(b, "timedlock t 5 0"), 0);
    IS(pt_moment(a, FIVE), 0);
    IS(pt_answer(b, 5000), ETIMEDOUT);
    IS(pt_mutex_timedlock(b, "t", FIVE), ETIMEDOUT);
}

static void test_clocks(struct pt_client *a, struct pt_client *b)
{
    IS(pt_mono_moment(a, FIVE), 0);
    IS(pt_mutex_init(a, "k", "normal", "stalled"), 0);
    IS(pt_cond_init(a, "d"), 0);
    IS(pt_rwlock_init(a, "q"), 0);
    IS(pt_mutex_lock(a, "k"), 0);
    IS(pt_mutex_clocklock(b, "k", "mono", FIVE), ETIMEDOUT);
    IS(pt_cond_clockwait(a, "d", "k", "mono", FIVE), ETIMEDOUT);
    IS(pt_rwlock_clockrdlock(b, "q", "real", FIVE), 0);
    IS(pt_rwlock_clockwrlock(a, "q", "mono", FIVE), ETIMEDOUT);
}

static void test_refusals(const char *path)
{
    struct pt_client c;
    IS(pt_connect(&c, path), 0);
    IS(pt_mutex_lock(&c, "m"), PT_NOHELLO);
    IS(pt_hello(&c, 0), PT_SYNTAX);
    IS(pt_ask(&c, "die"), PT_SYNTAX);
    IS(pt_ask(&c, "%129s", "x"), PT_LONG);
    IS(pt_ask(&c, "%512s", "x"), PT_LONG);
    IS(pt_answer(&c, 50), PT_LOST);
    pt_close(&c);
    IS(pt_hello(&c, 1), PT_LOST);
    IS(pt_connect(&c, "/nothing/here"), ENOENT);
}

static void test_a_death(struct pt_client *b, const char *path)
{
    struct pt_client c;
    IS(pt_connect(&c, path), 0);
    IS(pt_hello(&c, 1), 0);
    IS(pt_mutex_init(&c, "robust", "normal", "robust"), 0);
    IS(pt_mutex_lock(&c, "robust"), 0);
    IS(pt_send(b, "lock robust"), 0);
    pt_close(&c);
    IS(pt_answer(b, 5000), EOWNERDEAD);
    IS(pt_mutex_unlock(b, "robust"), 0);
    IS(pt_mutex_lock(b, "robust"), ENOTRECOVERABLE);
}

int main(int count, char **words)
{
    if (count != 2) {
        fprintf(stderr, "usage: test_ptclient SOCKET\n");
        return 2;
    }
    struct pt_client a, b;
    IS(pt_connect(&a, words[1]), 0);
    IS(pt_connect(&b, words[1]), 0);
    IS(pt_hello(&a, 10), 0);
    IS(pt_hello(&b, 20), 0);
    test_mutexes(&a, &b);
    test_read_write_locks(&a, &b);
    test_conditions(&a, &b);
    test_barriers(&a, &b);
    test_moments(&a, &b);
    test_clocks(&a, &b);
    test_refusals(words[1]);
    test_a_death(&b, words[1]);
    pt_close(&a);
    pt_close(&b);
    printf("test_ptclient: %s\n", faults == 0 ? "all answers are as they should be" : "FAILED");
    return faults != 0;
}
