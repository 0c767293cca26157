/* Plays a script against the C library's own synchronisation objects, and writes a trace.
 *
 *     cc -std=gnu11 -pthread -o libc_trace libc_trace.c
 *     sudo ./libc_trace < conformance/signal-groups.script > signal-groups.trace
 *     ptserver check signal-groups.trace
 *
 * Each client is a process of its own, and the objects are process-shared ones in one mapping. All
 * clients run on one processor under SCHED_FIFO, with the priorities of the script; the driver runs
 * on another. It waits after each line until every client sleeps, and only then sends the next. So
 * the trace has the order in which the calls took effect. SCHED_FIFO needs root. Without it the
 * trace says so, and its orders mean nothing.
 *
 * An answer `?` means that the library was not asked: what POSIX leaves undefined is not tried, nor
 * is what only the server refuses. In most such cases the line changes nothing for the server
 * either. Lines have to be in the grammar of scripts: it is not checked here.
 *
 * A moment line takes one slot of real time, 200 ms or `--slot MS`. Deadlines are mapped to the slot
 * of the moment line that first reaches them. If the lines between two moments take longer than a
 * slot, the program ends with status 75: run it again with a wider slot.
 *
 * Status: 0 done; 2 a wrong command line or script; 3 a failure of the system; 75 as above.
 */
#define _GNU_SOURCE 1
#include <errno.h>
#include <fcntl.h>
#include <pthread.h>
#include <sched.h>
#include <signal.h>
#include <stdarg.h>
#include <stdint.h>
#include <stdio.h>
#include <stdlib.h>
#include <string.h>
#include <sys/mman.h>
#include <sys/syscall.h>
#include <sys/wait.h>
#include <time.h>
#include <unistd.h>

enum { MOST_CLIENTS = 64, MOST_OBJECTS = 64, MOST_LINES = 4096, MOST_WORDS = 8, NAME = 33 };

enum { SETTLE_MS = 3000, LOOK_US = 1500, LOOKS = 3, NSEC = 1000000000 };

enum { STATUS_USAGE = 2, STATUS_SYSTEM = 3, STATUS_NARROW = 75 };

enum kind { NONE, MUTEX, RWLOCK, COND, BARRIER };

enum op {
    MUTEX_INIT, LOCK, TRYLOCK, TIMEDLOCK, CLOCKLOCK, UNLOCK, CONSISTENT, MUTEX_DESTROY,
    RWLOCK_INIT, RDLOCK, TRYRDLOCK, TIMEDRDLOCK, CLOCKRDLOCK, WRLOCK, TRYWRLOCK, TIMEDWRLOCK,
    CLOCKWRLOCK, RWUNLOCK, RWLOCK_DESTROY,
    COND_INIT, WAIT, TIMEDWAIT, CLOCKWAIT, SIGNAL, BROADCAST, COND_DESTROY,
    BARRIER_INIT, BWAIT, BARRIER_DESTROY
};

/* What a call word takes behind it: an object of this kind, then a mutex if `waits`, then a clock,
 * then a deadline. */
static const struct call_word {
    const char *word;
    enum kind kind;
    int waits, has_clock, has_deadline;
} WORDS[] = {
    [MUTEX_INIT] = {"mutex-init", MUTEX, 0, 0, 0},
    [LOCK] = {"lock", MUTEX, 0, 0, 0},
    [TRYLOCK] = {"trylock", MUTEX, 0, 0, 0},
    [TIMEDLOCK] = {"timedlock", MUTEX, 0, 0, 1},
    [CLOCKLOCK] = {"clocklock", MUTEX, 0, 1, 1},
    [UNLOCK] = {"unlock", MUTEX, 0, 0, 0},
    [CONSISTENT] = {"consistent", MUTEX, 0, 0, 0},
    [MUTEX_DESTROY] = {"mutex-destroy", MUTEX, 0, 0, 0},
    [RWLOCK_INIT] = {"rwlock-init", RWLOCK, 0, 0, 0},
    [RDLOCK] = {"rdlock", RWLOCK, 0, 0, 0},
    [TRYRDLOCK] = {"tryrdlock", RWLOCK, 0, 0, 0},
    [TIMEDRDLOCK] = {"timedrdlock", RWLOCK, 0, 0, 1},
    [CLOCKRDLOCK] = {"clockrdlock", RWLOCK, 0, 1, 1},
    [WRLOCK] = {"wrlock", RWLOCK, 0, 0, 0},
    [TRYWRLOCK] = {"trywrlock", RWLOCK, 0, 0, 0},
    [TIMEDWRLOCK] = {"timedwrlock", RWLOCK, 0, 0, 1},
    [CLOCKWRLOCK] = {"clockwrlock", RWLOCK, 0, 1, 1},
    [RWUNLOCK] = {"rwunlock", RWLOCK, 0, 0, 0},
    [RWLOCK_DESTROY] = {"rwlock-destroy", RWLOCK, 0, 0, 0},
    [COND_INIT] = {"cond-init", COND, 0, 0, 0},
    [WAIT] = {"wait", COND, 1, 0, 0},
    [TIMEDWAIT] = {"timedwait", COND, 1, 0, 1},
    [CLOCKWAIT] = {"clockwait", COND, 1, 1, 1},
    [SIGNAL] = {"signal", COND, 0, 0, 0},
    [BROADCAST] = {"broadcast", COND, 0, 0, 0},
    [COND_DESTROY] = {"cond-destroy", COND, 0, 0, 0},
    [BARRIER_INIT] = {"barrier-init", BARRIER, 0, 0, 0},
    [BWAIT] = {"bwait", BARRIER, 0, 0, 0},
    [BARRIER_DESTROY] = {"barrier-destroy", BARRIER, 0, 0, 0},
};

enum { CALLS = sizeof WORDS / sizeof WORDS[0] };

/* A call as it is sent to a client. */
struct call {
    enum op op;
    int object, mutex;
    int type, is_robust;
    unsigned count;
    clockid_t clock;
    struct timespec due;
};

/* What the driver and a client share: the number of calls that the client has made, and the result
 * of the latest. */
struct shared_client {
    volatile unsigned made;
    volatile int result;
};

union memory {
    pthread_mutex_t mutex;
    pthread_rwlock_t rwlock;
    pthread_cond_t cond;
    pthread_barrier_t barrier;
};

static struct shared {
    struct shared_client clients[MOST_CLIENTS];
    union memory objects[MOST_OBJECTS];
} *shared;

/* What the driver knows of a client, from its answers alone. */
static struct client {
    char name[NAME];
    int priority, lines, is_alive, is_waiting, at, with_mutex, is_woken;
    unsigned sent;
    pid_t pid;
    int pipe;
    struct call call;
} clients[MOST_CLIENTS];

/* What the driver knows of an object, from the answers alone: the owner or writer of a lock with
 * its count, and how often each client reads it. */
static struct object {
    char name[NAME];
    enum kind kind;
    int type, is_robust;
    int owner, count;
    int reads[MOST_CLIENTS];
} objects[MOST_OBJECTS];

static int client_count, object_count, unnamed_lines, is_fifo = 1;
static char text[MOST_LINES][256];
static int line_count;
static long slot_ms = 200;
static struct timespec base[2]; /* the reading of each clock at the start */
static int moments;             /* the moment lines so far */

static void fail(const char *what)
{
    fprintf(stderr, "libc_trace: %s: %s\n", what, strerror(errno));
    exit(STATUS_SYSTEM);
}

static void remark(const char *format, ...)
{
    va_list arguments;
    va_start(arguments, format);
    fputs("       ", stdout);
    vprintf(format, arguments);
    putchar('\n');
    va_end(arguments);
}

static const char *word_of(int result)
{
    static char other[32];
    switch (result) {
    case 0: return "0";
    case PTHREAD_BARRIER_SERIAL_THREAD: return "SERIAL";
    case EPERM: return "EPERM";
    case EINVAL: return "EINVAL";
    case EBUSY: return "EBUSY";
    case EAGAIN: return "EAGAIN";
    case EDEADLK: return "EDEADLK";
    case ETIMEDOUT: return "ETIMEDOUT";
    case EOWNERDEAD: return "EOWNERDEAD";
    case ENOTRECOVERABLE: return "ENOTRECOVERABLE";
    case ENOMEM: return "ENOMEM";
    default: snprintf(other, sizeof other, "E%d", result); return other;
    }
}

/* ---- a client's process ---- */

static int init_mutex(pthread_mutex_t *m, int type, int is_robust)
{
    pthread_mutexattr_t a;
    pthread_mutexattr_init(&a);
    pthread_mutexattr_setpshared(&a, PTHREAD_PROCESS_SHARED);
    pthread_mutexattr_settype(&a, type);
    pthread_mutexattr_setrobust(&a, is_robust ? PTHREAD_MUTEX_ROBUST : PTHREAD_MUTEX_STALLED);
    int result = pthread_mutex_init(m, &a);
    pthread_mutexattr_destroy(&a);
    return result;
}

static int init_rwlock(pthread_rwlock_t *r)
{
    pthread_rwlockattr_t a;
    pthread_rwlockattr_init(&a);
    pthread_rwlockattr_setpshared(&a, PTHREAD_PROCESS_SHARED);
    int result = pthread_rwlock_init(r, &a);
    pthread_rwlockattr_destroy(&a);
    return result;
}

static int init_cond(pthread_cond_t *c)
{
    pthread_condattr_t a;
    pthread_condattr_init(&a);
    pthread_condattr_setpshared(&a, PTHREAD_PROCESS_SHARED);
    int result = pthread_cond_init(c, &a);
    pthread_condattr_destroy(&a);
    return result;
}

static int init_barrier(pthread_barrier_t *b, unsigned count)
{
    pthread_barrierattr_t a;
    pthread_barrierattr_init(&a);
    pthread_barrierattr_setpshared(&a, PTHREAD_PROCESS_SHARED);
    int result = pthread_barrier_init(b, &a, count);
    pthread_barrierattr_destroy(&a);
    return result;
}

/* A library without the clock calls of POSIX 2024 is not asked for them. */
#ifdef __GLIBC__
#define BY_CLOCK(call) (call)
enum { HAS_CLOCK_CALLS = 1 };
#else
#define BY_CLOCK(call) ENOSYS
enum { HAS_CLOCK_CALLS = 0 };
#endif

static int make(const struct call *c)
{
    union memory *o = &shared->objects[c->object];
    pthread_mutex_t *with = &shared->objects[c->mutex].mutex;
    switch (c->op) {
    case MUTEX_INIT: return init_mutex(&o->mutex, c->type, c->is_robust);
    case LOCK: return pthread_mutex_lock(&o->mutex);
    case TRYLOCK: return pthread_mutex_trylock(&o->mutex);
    case TIMEDLOCK: return pthread_mutex_timedlock(&o->mutex, &c->due);
    case CLOCKLOCK: return BY_CLOCK(pthread_mutex_clocklock(&o->mutex, c->clock, &c->due));
    case UNLOCK: return pthread_mutex_unlock(&o->mutex);
    case CONSISTENT: return pthread_mutex_consistent(&o->mutex);
    case MUTEX_DESTROY: return pthread_mutex_destroy(&o->mutex);
    case RWLOCK_INIT: return init_rwlock(&o->rwlock);
    case RDLOCK: return pthread_rwlock_rdlock(&o->rwlock);
    case TRYRDLOCK: return pthread_rwlock_tryrdlock(&o->rwlock);
    case TIMEDRDLOCK: return pthread_rwlock_timedrdlock(&o->rwlock, &c->due);
    case CLOCKRDLOCK: return BY_CLOCK(pthread_rwlock_clockrdlock(&o->rwlock, c->clock, &c->due));
    case WRLOCK: return pthread_rwlock_wrlock(&o->rwlock);
    case TRYWRLOCK: return pthread_rwlock_trywrlock(&o->rwlock);
    case TIMEDWRLOCK: return pthread_rwlock_timedwrlock(&o->rwlock, &c->due);
    case CLOCKWRLOCK: return BY_CLOCK(pthread_rwlock_clockwrlock(&o->rwlock, c->clock, &c->due));
    case RWUNLOCK: return pthread_rwlock_unlock(&o->rwlock);
    case RWLOCK_DESTROY: return pthread_rwlock_destroy(&o->rwlock);
    case COND_INIT: return init_cond(&o->cond);
    case WAIT: return pthread_cond_wait(&o->cond, with);
    case TIMEDWAIT: return pthread_cond_timedwait(&o->cond, with, &c->due);
    case CLOCKWAIT: return BY_CLOCK(pthread_cond_clockwait(&o->cond, with, c->clock, &c->due));
    case SIGNAL: return pthread_cond_signal(&o->cond);
    case BROADCAST: return pthread_cond_broadcast(&o->cond);
    case COND_DESTROY: return pthread_cond_destroy(&o->cond);
    case BARRIER_INIT: return init_barrier(&o->barrier, c->count);
    case BWAIT: return pthread_barrier_wait(&o->barrier);
    case BARRIER_DESTROY: return pthread_barrier_destroy(&o->barrier);
    }
    return EINVAL;
}

static int pin(int processor)
{
    cpu_set_t set;
    CPU_ZERO(&set);
    CPU_SET(processor, &set);
    return (int)syscall(SYS_sched_setaffinity, 0, sizeof set, &set);
}

/* musl's sched_setscheduler fails always, so the system is called directly. */
static int be_fifo(int priority)
{
    struct sched_param param = {.sched_priority = priority};
    return (int)syscall(SYS_sched_setscheduler, 0, SCHED_FIFO, &param);
}

static void run_client(int index, int calls)
{
    struct shared_client *me = &shared->clients[index];
    struct call c;
    while (read(calls, &c, sizeof c) == (ssize_t)sizeof c) {
        me->result = make(&c);
        me->made++;
    }
    _exit(0);
}

/* ---- settling ---- */

/* Returns whether a process sleeps, and its time on a processor so far. */
static int sleeps(pid_t pid, unsigned long long *ran)
{
    char path[64], state = 'R';
    snprintf(path, sizeof path, "/proc/%d/stat", (int)pid);
    FILE *f = fopen(path, "r");
    if (f == NULL)
        return 0;
    if (fscanf(f, "%*d (%*[^)]) %c", &state) != 1)
        state = 'R';
    fclose(f);
    *ran = 0;
    snprintf(path, sizeof path, "/proc/%d/schedstat", (int)pid);
    f = fopen(path, "r");
    if (f != NULL) {
        unsigned long long on, waited, turns;
        if (fscanf(f, "%llu %llu %llu", &on, &waited, &turns) == 3)
            *ran = on + turns;
        fclose(f);
    }
    return state == 'S';
}

/* Notes a client whose process ended inside the library. */
static void note_crash(struct client *c)
{
    int status;
    if (waitpid(c->pid, &status, WNOHANG) != c->pid)
        return;
    remark("(%s's process ended inside the library, by signal %d)", c->name,
           WIFSIGNALED(status) ? WTERMSIG(status) : 0);
    c->is_alive = 0;
    c->is_waiting = 0;
}

/* Waits until each living client sleeps and hasn't run between two looks. */
static void settle(void)
{
    unsigned long long before[MOST_CLIENTS] = {0};
    int quiet = 0;
    for (int waited = 0; waited < SETTLE_MS * 1000; waited += LOOK_US) {
        int is_quiet = 1;
        for (int i = 0; i < client_count; i++) {
            unsigned long long ran = 0;
            if (!clients[i].is_alive)
                continue;
            int is_asleep = sleeps(clients[i].pid, &ran);
            if (!is_asleep || ran != before[i])
                is_quiet = 0;
            before[i] = ran;
        }
        quiet = is_quiet ? quiet + 1 : 0;
        if (quiet == LOOKS)
            break;
        usleep(LOOK_US);
    }
    if (quiet < LOOKS)
        remark("(a client still runs after %d ms)", SETTLE_MS);
    for (int i = 0; i < client_count; i++)
        if (clients[i].is_alive)
            note_crash(&clients[i]);
}

/* ---- what the answers say of the objects ---- */

static int is_acquired(int result)
{
    return result == 0 || result == EOWNERDEAD;
}

static void note_owner(struct object *o, int client, int result)
{
    if (!is_acquired(result))
        return;
    o->count = o->owner == client ? o->count + 1 : 1;
    o->owner = client;
}

static void note_unlock(struct object *o)
{
    if (--o->count == 0)
        o->owner = -1;
}

static void note_rwunlock(struct object *o, int client)
{
    if (o->owner == client)
        o->owner = -1;
    else
        o->reads[client]--;
}

static void note_lock_answer(int client, const struct call *c, int result)
{
    struct object *o = &objects[c->object];
    switch (c->op) {
    case LOCK: case TRYLOCK: case TIMEDLOCK: case CLOCKLOCK:
        note_owner(o, client, result);
        break;
    case RDLOCK: case TRYRDLOCK: case TIMEDRDLOCK: case CLOCKRDLOCK:
        o->reads[client] += result == 0;
        break;
    case WRLOCK: case TRYWRLOCK: case TIMEDWRLOCK: case CLOCKWRLOCK:
        if (result == 0)
            o->owner = client;
        break;
    case WAIT: case TIMEDWAIT: case CLOCKWAIT:
        if (result == ETIMEDOUT || result == EINVAL)
            result = 0;
        note_owner(&objects[c->mutex], client, result);
        break;
    default:
        break;
    }
}

/* A broadcast moves all waits at a condition to their mutex. */
static void note_broadcast(int cond)
{
    for (int i = 0; i < client_count; i++)
        if (clients[i].is_waiting && clients[i].call.object == cond)
            clients[i].is_woken = 1;
}

static void note_answer(int client, const struct call *c, int result)
{
    struct object *o = &objects[c->object];
    note_lock_answer(client, c, result);
    if (result != 0)
        return;
    switch (c->op) {
    case UNLOCK: note_unlock(o); break;
    case RWUNLOCK: note_rwunlock(o, client); break;
    case BROADCAST: note_broadcast(c->object); break;
    case MUTEX_DESTROY: case RWLOCK_DESTROY: case COND_DESTROY: case BARRIER_DESTROY:
        o->kind = NONE;
        break;
    default: break;
    }
}

static int has_answer(int client)
{
    return clients[client].is_waiting && shared->clients[client].made == clients[client].sent;
}

static int gives_back(enum op op)
{
    return op == UNLOCK || op == RWUNLOCK;
}

/* Notes the answers that have come: first what is given back, and then who has it. */
static void note_answers(void)
{
    for (int is_back = 1; is_back >= 0; is_back--)
        for (int i = 0; i < client_count; i++)
            if (has_answer(i) && gives_back(clients[i].call.op) == is_back)
                note_answer(i, &clients[i].call, shared->clients[i].result);
}

/* Writes the answers that have come. */
static void write_answers(void)
{
    note_answers();
    for (int i = 0; i < client_count; i++) {
        if (!has_answer(i))
            continue;
        clients[i].is_waiting = 0;
        printf("> %s %d %s\n", clients[i].name, clients[i].at,
               word_of(shared->clients[i].result));
    }
}

/* ---- what is not asked ---- */

static int is_waited_for(int object)
{
    for (int i = 0; i < client_count; i++)
        if (clients[i].is_waiting
            && ((clients[i].call.object == object && !clients[i].is_woken)
                || clients[i].with_mutex == object))
            return 1;
    return 0;
}

static int is_held(const struct object *o)
{
    if (o->owner >= 0)
        return 1;
    for (int i = 0; i < client_count; i++)
        if (o->reads[i] > 0)
            return 1;
    return 0;
}

static int has_other_mutex(int cond, int mutex)
{
    for (int i = 0; i < client_count; i++)
        if (clients[i].is_waiting && !clients[i].is_woken && clients[i].call.object == cond
            && clients[i].with_mutex != mutex)
            return 1;
    return 0;
}

/* Returns whether a mutex reports a caller that does not own it. */
static int reports_strangers(const struct object *m, int is_unlock)
{
    return m->is_robust || m->type == PTHREAD_MUTEX_ERRORCHECK
        || (is_unlock && m->type == PTHREAD_MUTEX_RECURSIVE);
}

/* Returns why the library is not asked for a call, or NULL. */
static const char *why_not(int client, const struct call *c)
{
    const struct object *o = &objects[c->object];
    int is_write = c->op >= WRLOCK && c->op <= CLOCKWRLOCK;
    int is_read = c->op >= RDLOCK && c->op <= CLOCKRDLOCK;
    if (WORDS[c->op].has_clock && !HAS_CLOCK_CALLS)
        return "the library has no such call";
    switch (c->op) {
    case UNLOCK:
        if (o->owner != client && !reports_strangers(o, 1))
            return "undefined: the caller does not own the mutex";
        break;
    case CONSISTENT:
        if (o->owner != client)
            return "undefined: the caller does not own the mutex";
        break;
    case WAIT: case TIMEDWAIT: case CLOCKWAIT:
        if (objects[c->mutex].owner != client && !reports_strangers(&objects[c->mutex], 0))
            return "undefined: the caller does not own the mutex";
        if (has_other_mutex(c->object, c->mutex))
            return "undefined: a second mutex at a condition";
        break;
    case RWUNLOCK:
        if (o->owner != client && o->reads[client] == 0)
            return "undefined: the caller holds nothing";
        break;
    case MUTEX_DESTROY: case RWLOCK_DESTROY: case COND_DESTROY: case BARRIER_DESTROY:
        if (is_held(o) || is_waited_for(c->object))
            return "undefined: the object is in use";
        break;
    case BARRIER_INIT:
        if (c->count > 1024)
            return "a limit of the server";
        break;
    default:
        break;
    }
    if ((is_write && (o->owner == client || o->reads[client] > 0))
        || (is_read && o->owner == client))
        return "a deadlock that need not be reported";
    if ((is_read && o->reads[client] >= 255) || (o->kind == MUTEX && o->count >= 255))
        return "a limit of the server";
    return NULL;
}

/* ---- time ---- */

static long long nanos(long long seconds, long long nanoseconds)
{
    return seconds * NSEC + nanoseconds;
}

/* Returns the number of the moment line that first shows this time on a clock, from 1; 0 if one
 * before did; -1 if none does. */
static int moment_of(clockid_t clock, long long due)
{
    const char *word = clock == CLOCK_REALTIME ? "* moment " : "* mono-moment ";
    int number = 0;
    for (int i = 0; i < line_count; i++) {
        long long s, n;
        if (strncmp(text[i], "* moment ", 9) != 0 && strncmp(text[i], "* mono-moment ", 14) != 0)
            continue;
        number++;
        if (strncmp(text[i], word, strlen(word)) == 0
            && sscanf(text[i] + strlen(word), "%lld %lld", &s, &n) == 2 && nanos(s, n) >= due)
            return number <= moments ? 0 : number;
    }
    return -1;
}

/* Returns how many deadlines of the script on a clock are later than this one and reached by the
 * same moment: these come due in the order of their times. */
static int later_ones(clockid_t clock, long long due, int number)
{
    int later = 0;
    for (int i = 0; i < line_count; i++) {
        char *words = text[i], *last = strrchr(words, ' ');
        long long n, s;
        if (last == NULL || words[0] == '*')
            continue;
        n = atoll(last + 1);
        char *before = last;
        while (before > words && *--before != ' ')
            ;
        s = atoll(before + 1);
        later += nanos(s, n) > due && moment_of(clock, nanos(s, n)) == number;
    }
    return later;
}

static struct timespec after(const struct timespec *start, long long ns)
{
    long long all = nanos(start->tv_sec, start->tv_nsec) + ns;
    return (struct timespec){.tv_sec = all / NSEC, .tv_nsec = all % NSEC};
}

/* Returns the real deadline for one of the script. */
static struct timespec real_deadline(clockid_t clock, long long s, long long n)
{
    const struct timespec *start = &base[clock == CLOCK_MONOTONIC];
    long long slot = slot_ms * 1000000LL;
    int number = moment_of(clock, nanos(s, n));
    struct timespec due;
    if (number < 0)
        due = after(start, 100000LL * NSEC);
    else if (number == 0)
        due = after(start, -NSEC);
    else
        due = after(start, number * slot - 2000000LL * later_ones(clock, nanos(s, n), number));
    if (n >= NSEC)
        due.tv_nsec = n;
    return due;
}

static long long since_start(void)
{
    struct timespec now;
    clock_gettime(CLOCK_MONOTONIC, &now);
    return nanos(now.tv_sec, now.tv_nsec) - nanos(base[1].tv_sec, base[1].tv_nsec);
}

/* Waits for the real time of a moment line. */
static void wait_for_moment(void)
{
    moments++;
    long long left = moments * slot_ms * 1000000LL + 5000000LL - since_start();
    if (left > 0)
        usleep((useconds_t)(left / 1000));
}

/* Ends the program if the lines before the next moment took more than its slot. */
static void check_slot(void)
{
    if (moment_of(CLOCK_REALTIME, 0) < 0 && moment_of(CLOCK_MONOTONIC, 0) < 0)
        return;
    if (since_start() > (moments + 1) * slot_ms * 1000000LL - 20000000LL) {
        fprintf(stderr, "libc_trace: a slot of %ld ms is too narrow\n", slot_ms);
        exit(STATUS_NARROW);
    }
}

/* ---- the lines of a script ---- */

static int client_named(const char *name)
{
    for (int i = 0; i < client_count; i++)
        if (strcmp(clients[i].name, name) == 0)
            return i;
    return -1;
}

static int object_named(const char *name)
{
    for (int i = 0; i < object_count; i++)
        if (objects[i].kind != NONE && strcmp(objects[i].name, name) == 0)
            return i;
    return -1;
}

static int read_kind(const char *word)
{
    if (strcmp(word, "errorcheck") == 0)
        return PTHREAD_MUTEX_ERRORCHECK;
    return strcmp(word, "recursive") == 0 ? PTHREAD_MUTEX_RECURSIVE : PTHREAD_MUTEX_NORMAL;
}

/* Makes a new object known, and returns its index, or -1. */
static int add_object(const char *name, const struct call *c)
{
    if (object_count == MOST_OBJECTS || object_named(name) >= 0)
        return -1;
    struct object *o = &objects[object_count];
    memset(o, 0, sizeof *o);
    snprintf(o->name, NAME, "%s", name);
    o->kind = WORDS[c->op].kind;
    o->type = c->type;
    o->is_robust = c->is_robust;
    o->owner = -1;
    return object_count++;
}

static int is_init(enum op op)
{
    return op == MUTEX_INIT || op == RWLOCK_INIT || op == COND_INIT || op == BARRIER_INIT;
}

static int has_kind(int object, enum kind kind)
{
    return object >= 0 && objects[object].kind == kind;
}

/* Reads a call from the words behind a client's name. Returns whether the library can be asked. */
static int read_call(char **words, int count, struct call *c)
{
    int at = 2;
    memset(c, 0, sizeof *c);
    for (c->op = 0; (int)c->op < CALLS; c->op++)
        if (strcmp(WORDS[c->op].word, words[0]) == 0)
            break;
    if ((int)c->op == CALLS || count < 2)
        return 0;
    const struct call_word *w = &WORDS[c->op];
    c->clock = CLOCK_REALTIME;
    if (c->op == MUTEX_INIT && count == 4) {
        c->type = read_kind(words[2]);
        c->is_robust = strcmp(words[3], "robust") == 0;
    }
    if (c->op == BARRIER_INIT && count == 3)
        c->count = (unsigned)strtoul(words[2], NULL, 10);
    c->object = is_init(c->op) ? add_object(words[1], c) : object_named(words[1]);
    if (!has_kind(c->object, w->kind))
        return 0;
    if (w->waits && (at >= count || !has_kind(c->mutex = object_named(words[at++]), MUTEX)))
        return 0;
    if (w->has_clock && at < count)
        c->clock = strcmp(words[at++], "mono") == 0 ? CLOCK_MONOTONIC : CLOCK_REALTIME;
    if (w->has_deadline && at + 1 < count)
        c->due = real_deadline(c->clock, atoll(words[at]), atoll(words[at + 1]));
    return 1;
}

static void join(const char *name, int priority)
{
    int ends[2];
    struct client *c = &clients[client_count];
    snprintf(c->name, NAME, "%s", name);
    c->priority = priority;
    c->lines = 1;
    if (pipe(ends) != 0)
        fail("pipe");
    c->pid = fork();
    if (c->pid < 0)
        fail("fork");
    if (c->pid == 0) {
        close(ends[1]);
        run_client(client_count, ends[0]);
    }
    close(ends[0]);
    struct sched_param param = {.sched_priority = priority};
    cpu_set_t set;
    CPU_ZERO(&set);
    CPU_SET(0, &set);
    syscall(SYS_sched_setaffinity, c->pid, sizeof set, &set);
    if (syscall(SYS_sched_setscheduler, c->pid, SCHED_FIFO, &param) != 0)
        is_fifo = 0;
    c->pipe = ends[1];
    c->is_alive = 1;
    client_count++;
    settle();
    printf("> %s 1 0\n", name);
}

static void die(int client)
{
    struct client *c = &clients[client];
    kill(c->pid, SIGKILL);
    waitpid(c->pid, NULL, 0);
    close(c->pipe);
    c->is_alive = 0;
    c->is_waiting = 0;
}

static void ask(int client, char **words, int count)
{
    struct client *c = &clients[client];
    struct call call;
    if (c->is_waiting) {
        printf("> %s %d BLOCKED\n", c->name, c->lines);
        return;
    }
    const char *why = read_call(words, count, &call) ? why_not(client, &call) : "refused by name";
    if (why != NULL) {
        printf("> %s %d ?\n", c->name, c->lines);
        remark("(not asked: %s)", why);
        return;
    }
    int waits = WORDS[call.op].waits;
    c->call = call;
    c->with_mutex = waits ? call.mutex : -1;
    c->at = c->lines;
    c->is_waiting = 1;
    c->is_woken = 0;
    c->sent++;
    if (waits && objects[call.mutex].owner == client)
        note_unlock(&objects[call.mutex]);
    if (write(c->pipe, &call, sizeof call) != (ssize_t)sizeof call)
        fail("write");
}

/* Plays the line of a client. */
static void play_client(char **words, int count)
{
    int client = client_named(words[0]);
    int is_hello = count == 3 && strcmp(words[1], "hello") == 0;
    if (client < 0 && is_hello && client_count < MOST_CLIENTS) {
        join(words[0], atoi(words[2]));
        return;
    }
    int number = client < 0 ? 1 : ++clients[client].lines;
    if (client < 0 || !clients[client].is_alive || is_hello) {
        printf("> %s %d ?\n", words[0], number);
        return;
    }
    if (count == 2 && strcmp(words[1], "die") == 0)
        die(client);
    else
        ask(client, words + 1, count - 1);
}

static void play(const char *line)
{
    char copy[256], *words[MOST_WORDS];
    int count = 0;
    printf("%s\n", line);
    snprintf(copy, sizeof copy, "%s", line);
    for (char *w = strtok(copy, " "); w != NULL && count < MOST_WORDS; w = strtok(NULL, " "))
        words[count++] = w;
    if (count < 2) {
        printf("> ? %d ?\n", ++unnamed_lines);
        return;
    }
    if (strcmp(words[0], "*") == 0)
        wait_for_moment();
    else
        play_client(words, count);
    settle();
    write_answers();
    if (strcmp(words[0], "*") != 0)
        check_slot();
    fflush(stdout);
}

static void read_script(void)
{
    while (line_count < MOST_LINES && fgets(text[line_count], sizeof text[0], stdin) != NULL) {
        char *line = text[line_count];
        line[strcspn(line, "\n")] = '\0';
        if (line[0] != '\0' && line[0] != '#' && line[0] != ' ' && line[0] != '>')
            line_count++;
    }
}

static void start(void)
{
    void *memory = mmap(NULL, sizeof *shared, PROT_READ | PROT_WRITE, MAP_SHARED | MAP_ANONYMOUS,
                        -1, 0);
    if (memory == MAP_FAILED)
        fail("mmap");
    shared = memory;
    signal(SIGPIPE, SIG_IGN);
    if (sysconf(_SC_NPROCESSORS_ONLN) > 1)
        pin(1);
    if (be_fifo(sched_get_priority_max(SCHED_FIFO)) != 0)
        is_fifo = 0;
    clock_gettime(CLOCK_REALTIME, &base[0]);
    clock_gettime(CLOCK_MONOTONIC, &base[1]);
}

static void write_header(void)
{
#ifdef __GLIBC__
    char version[64] = "";
    confstr(_CS_GNU_LIBC_VERSION, version, sizeof version);
    printf("# %s\n", version);
#else
    puts("# another C library than glibc");
#endif
}

int main(int argc, char **argv)
{
    if (argc == 3 && strcmp(argv[1], "--slot") == 0)
        slot_ms = atol(argv[2]);
    if ((argc != 1 && argc != 3) || slot_ms < 50) {
        fputs("usage: libc_trace [--slot MS] < SCRIPT > TRACE\n", stderr);
        return STATUS_USAGE;
    }
    read_script();
    start();
    write_header();
    for (int i = 0; i < line_count; i++)
        play(text[i]);
    if (!is_fifo) {
        puts("# SCHED_FIFO was refused: orders mean nothing");
        fputs("libc_trace: SCHED_FIFO was refused (it needs root): orders mean nothing\n", stderr);
    }
    for (int i = 0; i < client_count; i++)
        if (clients[i].is_alive)
            kill(clients[i].pid, SIGKILL);
    return 0;
}
