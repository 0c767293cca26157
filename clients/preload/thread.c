/* The start of the program, fork, and the ends of threads and processes. */
#include "preload.h"

#include <limits.h>
#include <sched.h>
#include <stdlib.h>
#include <string.h>
#include <sys/syscall.h>
#include <unistd.h>

/* The round of a thread's destructors in which its client ends. With ThreadSanitizer it has to be
 * the one before the last, in which the sanitizer ends the thread. */
#ifndef LAST_ROUND
#define LAST_ROUND PTHREAD_DESTRUCTOR_ITERATIONS
#endif

enum { LINEAGE = 16 };

const char *socket_path;
pid_t my_pid;

static pthread_key_t end_of_thread;
static _Thread_local pid_t tid __attribute__((tls_model("initial-exec")));
static _Atomic pid_t slots_owner;

/* The threads that this process's first thread is a copy of, from one fork to the next. */
static struct {
    pid_t pid;
    pid_t tid;
} lineage[LINEAGE];
static unsigned forks;

pid_t my_tid(void)
{
    if (tid == 0)
        tid = (pid_t)syscall(SYS_gettid);
    return tid;
}

int is_my_copy(pid_t pid, pid_t its_tid)
{
    for (unsigned i = 0; i < LINEAGE; i++)
        if (lineage[i].pid == pid && lineage[i].tid == its_tid)
            return my_tid() == my_pid;
    return 0;
}

/* A lock of its own, since those of the C library are served by this one. A signal handler may
 * fork while its thread has it. */
void lock_slots(void)
{
    pid_t none = 0;
    while (!atomic_compare_exchange_strong(&slots_owner, &none, my_tid())) {
        if (none == my_tid())
            return;
        none = 0;
        sched_yield();
    }
}

void unlock_slots(void)
{
    atomic_store(&slots_owner, 0);
}

/* An inherited socket would keep the parent's client alive, so the child closes all of them. */
static void child_of_fork(void)
{
    for (int i = 0; i < SLOTS; i++) {
        int socket1 = atomic_exchange(&slots[i].socket1, 0);
        int trace1 = atomic_exchange(&slots[i].trace1, 0);
        if (socket1 != 0)
            syscall(SYS_close, socket1 - 1);
        if (trace1 != 0)
            syscall(SYS_close, trace1 - 1);
    }
    trace_forked();
    lineage[forks % LINEAGE].pid = my_pid;
    lineage[forks % LINEAGE].tid = my_tid();
    forks++;
    me = (struct link){0};
    tid = 0;
    my_pid = getpid();
    unlock_slots();
}

/* Ends the thread's client. The program's own destructors may still make calls, so this one comes
 * again until the last round. */
static void thread_ends(void *round)
{
    if ((intptr_t)round < LAST_ROUND)
        pthread_setspecific(end_of_thread, (void *)((intptr_t)round + 1));
    else if (me.is_open && !me.is_asking)
        link_leave(&me);
}

void thread_connected(void)
{
    pthread_setspecific(end_of_thread, (void *)1);
}

/* Ends the client of the thread that calls exit, so that its death comes before waitpid returns.
 * The other threads still run, and destructors of libraries may wait for them. */
static void process_ends(int status, void *unused)
{
    (void)status;
    (void)unused;
    if (me.is_open && !me.is_asking)
        link_leave(&me);
}

/* The exit handler is registered before those of the program and of most of its libraries, so it
 * comes after them. The handler of fork comes first in the child. */
static void begin_once(void)
{
    my_pid = getpid();
    socket_path = getenv("PTPRELOAD_SOCKET");
    trace_begin();
    pthread_key_create(&end_of_thread, thread_ends);
    pthread_atfork(lock_slots, unlock_slots, child_of_fork);
    on_exit(process_ends, NULL);
}

__attribute__((constructor)) void begin(void)
{
    static pthread_once_t once = PTHREAD_ONCE_INIT;
    pthread_once(&once, begin_once);
}
