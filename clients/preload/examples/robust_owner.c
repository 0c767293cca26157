/* A robust owner that is killed: the next owner learns it, and repairs what the mutex guards.
 *
 *     ./robust_owner [ROUNDS]      20 if not given
 *
 * The record is in memory that two processes share. In each round the child locks the mutex,
 * writes half of the record and is killed.
 */
#include <errno.h>
#include <pthread.h>
#include <signal.h>
#include <stdio.h>
#include <stdlib.h>
#include <sys/mman.h>
#include <sys/wait.h>
#include <unistd.h>

struct record {
    pthread_mutex_t mutex;
    volatile int one, other;    /* equal, unless a writer has died between the two */
};

static struct record *make_record(void)
{
    pthread_mutexattr_t attr;
    struct record *record = mmap(NULL, sizeof *record, PROT_READ | PROT_WRITE,
                                 MAP_SHARED | MAP_ANONYMOUS, -1, 0);
    if (record == MAP_FAILED)
        exit(1);
    pthread_mutexattr_init(&attr);
    pthread_mutexattr_setpshared(&attr, PTHREAD_PROCESS_SHARED);
    pthread_mutexattr_setrobust(&attr, PTHREAD_MUTEX_ROBUST);
    if (pthread_mutex_init(&record->mutex, &attr) != 0)
        exit(1);
    return record;
}

/* Runs in the child, until it is killed. */
static void write_half(struct record *record, int has_written)
{
    pthread_mutex_lock(&record->mutex);
    record->one++;
    (void)!write(has_written, "x", 1);
    for (;;)
        pause();
}

static void kill_an_owner(struct record *record)
{
    int ends[2];
    char byte;
    if (pipe(ends) != 0)
        exit(1);
    pid_t child = fork();
    if (child == 0)
        write_half(record, ends[1]);
    if (child < 0 || read(ends[0], &byte, 1) != 1)
        exit(1);
    kill(child, SIGKILL);
    waitpid(child, NULL, 0);
    close(ends[0]);
    close(ends[1]);
}

int main(int count, char **words)
{
    int rounds = count > 1 ? atoi(words[1]) : 20, told = 0, repaired = 0;
    struct record *record = make_record();
    for (int i = 0; i < rounds; i++) {
        kill_an_owner(record);
        told += pthread_mutex_lock(&record->mutex) == EOWNERDEAD;
        if (record->one != record->other) {
            record->other = record->one;
            repaired += pthread_mutex_consistent(&record->mutex) == 0;
        }
        pthread_mutex_unlock(&record->mutex);
    }
    printf("%d owners were killed: EOWNERDEAD %d, repaired %d\n", rounds, told, repaired);
    return pthread_mutex_destroy(&record->mutex) != 0 || told != rounds || repaired != rounds;
}
