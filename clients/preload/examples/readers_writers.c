/* Readers and writers: a read-write lock keeps two numbers equal, and a barrier starts everybody.
 *
 *     ./readers_writers [ROUNDS]      of each reader and writer, 500 if not given
 */
#include <pthread.h>
#include <stdatomic.h>
#include <stdio.h>
#include <stdlib.h>

enum { READERS = 6, WRITERS = 2 };

static pthread_rwlock_t lock = PTHREAD_RWLOCK_INITIALIZER;
static pthread_barrier_t start;
static volatile long one, other;
static atomic_int reads, torn, firsts;
static int rounds;

static void wait_for_start(void)
{
    if (pthread_barrier_wait(&start) == PTHREAD_BARRIER_SERIAL_THREAD)
        firsts++;
}

static void *write_all(void *unused)
{
    (void)unused;
    wait_for_start();
    for (int i = 0; i < rounds; i++) {
        pthread_rwlock_wrlock(&lock);
        one++;
        other++;
        pthread_rwlock_unlock(&lock);
    }
    return NULL;
}

static void *read_all(void *unused)
{
    (void)unused;
    wait_for_start();
    for (int i = 0; i < rounds; i++) {
        pthread_rwlock_rdlock(&lock);
        torn += one != other;
        reads++;
        pthread_rwlock_unlock(&lock);
    }
    return NULL;
}

int main(int count, char **words)
{
    pthread_t threads[READERS + WRITERS];
    rounds = count > 1 ? atoi(words[1]) : 500;
    pthread_barrier_init(&start, NULL, READERS + WRITERS);
    for (int i = 0; i < READERS + WRITERS; i++)
        pthread_create(&threads[i], NULL, i < READERS ? read_all : write_all, NULL);
    for (int i = 0; i < READERS + WRITERS; i++)
        pthread_join(threads[i], NULL);
    printf("%d reads, %d of them torn; %ld writes; %d thread was last at the barrier\n", reads,
           torn, one, firsts);
    return pthread_barrier_destroy(&start) != 0 || torn != 0 || one != (long)WRITERS * rounds;
}
