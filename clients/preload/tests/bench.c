/* How many round trips a program has with the library, and how many by clients/c/ptclient.h.
 *
 *     tools/run-under out/bench [TURNS]      of both, by turns; 1000 if not given
 *
 * A pair is a lock and an unlock of one mutex by one thread: two round trips. Medians are compared,
 * since other work on the machine comes and goes. Every 50 turns both connect anew, since the
 * server's threads have good places and bad ones.
 */
#include "../../c/ptclient.h"

#include <pthread.h>

enum { PAIRS = 20, TURNS = 50, MOST = 10000 };

static pthread_mutex_t mutex = PTHREAD_MUTEX_INITIALIZER;
static struct pt_client client;
static double by_library[MOST], by_client[MOST];

static double now(void)
{
    struct timespec at;
    clock_gettime(CLOCK_MONOTONIC, &at);
    return (double)at.tv_sec + (double)at.tv_nsec / 1e9;
}

static void pair_by_library(void)
{
    pthread_mutex_lock(&mutex);
    pthread_mutex_unlock(&mutex);
}

static void pair_by_client(void)
{
    pt_mutex_lock(&client, "m");
    pt_mutex_unlock(&client, "m");
}

/* Returns how many pairs a second there are. */
static double measure(void (*pair)(void))
{
    double begin = now();
    for (int i = 0; i < PAIRS; i++)
        pair();
    return PAIRS / (now() - begin);
}

static int is_more(const void *one, const void *other)
{
    double a = *(const double *)one, b = *(const double *)other;
    return (a > b) - (a < b);
}

static double median_of(double *values, int count)
{
    qsort(values, (size_t)count, sizeof values[0], is_more);
    return values[count / 2];
}

static void connect_client(void)
{
    if (pt_connect(&client, getenv("PTPRELOAD_SOCKET")) != 0 || pt_hello(&client, 10) != 0) {
        fprintf(stderr, "bench: no server: start it by tools/run-under\n");
        exit(2);
    }
    pt_mutex_init(&client, "m", "normal", "stalled");
}

/* Measures some turns in a thread and by a client that are new. */
static void *measure_turns(void *first)
{
    int turn = *(int *)first;
    connect_client();
    for (int i = turn; i < turn + TURNS; i++) {
        by_library[i] = measure(pair_by_library);
        by_client[i] = measure(pair_by_client);
    }
    pt_close(&client);
    return NULL;
}

int main(int count, char **words)
{
    int turns = count > 1 ? atoi(words[1]) : 1000;
    if (getenv("PTPRELOAD_SOCKET") == NULL || turns < TURNS || turns > MOST - TURNS) {
        fprintf(stderr, "usage: tools/run-under bench [TURNS]\n");
        return 2;
    }
    for (int first = 0; first < turns; first += TURNS) {
        pthread_t thread;
        pthread_create(&thread, NULL, measure_turns, &first);
        pthread_join(thread, NULL);
    }
    double library = median_of(by_library, turns), direct = median_of(by_client, turns);
    printf("pairs a second: %.0f by the library, %.0f by ptclient.h; %.2f of the round trips\n",
           library, direct, library / direct);
    return library < 0.8 * direct;
}
