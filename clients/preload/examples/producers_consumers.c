/* Producers and consumers: a bounded buffer with a mutex and two conditions.
 *
 *     ./producers_consumers [ITEMS]      items for each producer, 1000 if not given
 *
 * It prints the same whether the C library or ptserver serves its objects.
 */
#include <pthread.h>
#include <stdio.h>
#include <stdlib.h>

enum { PRODUCERS = 3, CONSUMERS = 4, ROOM = 8 };

static pthread_mutex_t mutex = PTHREAD_MUTEX_INITIALIZER;
static pthread_cond_t not_full = PTHREAD_COND_INITIALIZER;
static pthread_cond_t not_empty = PTHREAD_COND_INITIALIZER;
static int buffer[ROOM], begin, length;
static int left;        /* items that nobody has taken yet */
static int items;       /* for each producer */

static void put(int item)
{
    pthread_mutex_lock(&mutex);
    while (length == ROOM)
        pthread_cond_wait(&not_full, &mutex);
    buffer[(begin + length++) % ROOM] = item;
    pthread_cond_signal(&not_empty);
    pthread_mutex_unlock(&mutex);
}

/* Takes an item. Returns 0 if no more will come. */
static int take(int *item)
{
    int is_taken = 0;
    pthread_mutex_lock(&mutex);
    while (length == 0 && left > 0)
        pthread_cond_wait(&not_empty, &mutex);
    if (length > 0) {
        *item = buffer[begin];
        begin = (begin + 1) % ROOM;
        length--;
        is_taken = 1;
        pthread_cond_signal(&not_full);
        if (--left == 0)
            pthread_cond_broadcast(&not_empty);
    }
    pthread_mutex_unlock(&mutex);
    return is_taken;
}

static void *produce(void *unused)
{
    (void)unused;
    for (int item = 1; item <= items; item++)
        put(item);
    return NULL;
}

static void *consume(void *sum)
{
    int item;
    while (take(&item))
        *(long long *)sum += item;
    return NULL;
}

int main(int count, char **words)
{
    pthread_t producers[PRODUCERS], consumers[CONSUMERS];
    long long sums[CONSUMERS] = {0}, sum = 0;
    items = count > 1 ? atoi(words[1]) : 1000;
    left = PRODUCERS * items;
    for (int i = 0; i < CONSUMERS; i++)
        pthread_create(&consumers[i], NULL, consume, &sums[i]);
    for (int i = 0; i < PRODUCERS; i++)
        pthread_create(&producers[i], NULL, produce, NULL);
    for (int i = 0; i < PRODUCERS; i++)
        pthread_join(producers[i], NULL);
    for (int i = 0; i < CONSUMERS; i++) {
        pthread_join(consumers[i], NULL);
        sum += sums[i];
    }
    printf("%d items of each of %d producers, taken by %d consumers: sum %lld, %d left\n", items,
           PRODUCERS, CONSUMERS, sum, left);
    return sum == (long long)PRODUCERS * items * (items + 1) / 2 ? 0 : 1;
}
