/* What the files of the library share. docs/PRELOAD.md says what the library serves, and how. */
#ifndef PRELOAD_H
#define PRELOAD_H

#include <errno.h>
#include <pthread.h>
#include <stdatomic.h>
#include <stddef.h>
#include <stdint.h>
#include <sys/types.h>
#include <time.h>

#define EXPORT __attribute__((visibility("default")))

/* wire.c: the connection of a thread, which is one client of the server. */

enum { SERIAL = -1 };      /* an answer beside 0 and the numbers of errno */
enum { SLOTS = 2048 };     /* more connections than the server takes */
enum { ANSWER = 64 };      /* room for the longest answer */

struct link {
    int is_open;
    int is_asking;         /* the last line has no answer yet */
    int socket;
    int slot;              /* its place in `slots`, or -1 */
    int trace;             /* the descriptor of its trace, or -1 */
    int is_settled;        /* its last line waits: the trace is not locked for it */
    unsigned client;       /* its number in the trace */
    unsigned long long sent;
    size_t length;
    char bytes[ANSWER];
};

/* The connections of this process, for the child of a fork. A descriptor is stored plus one, so
 * that 0 is none. */
struct slot {
    _Atomic int socket1;
    _Atomic int trace1;
};

extern _Thread_local struct link me __attribute__((tls_model("initial-exec")));
extern struct slot slots[SLOTS];

/* Sends a line and returns its answer: 0, an errno, or SERIAL. The format is that of printf. A
 * refusal, and a lost connection, end the program. */
int ask(const char *format, ...) __attribute__((format(printf, 1, 2)));

/* Connects a client of its own, which is in no slot. It ends by link_leave. */
void link_join(struct link *link, int priority);

/* Sends a line over a connection. Returns its answer. */
int link_ask(struct link *link, const char *format, ...) __attribute__((format(printf, 2, 3)));

/* Ends a client: its death is in the server's history when this returns. */
void link_leave(struct link *link);

/* Moves a descriptor up, out of the way of the program's own. Returns where it is. */
int move_up(int low);

/* Writes a line on standard error. */
void say(const char *format, ...) __attribute__((format(printf, 1, 2)));

/* Writes why, and ends the program by SIGABRT. */
_Noreturn void give_up(const char *why, const char *line);

/* trace.c: PTPRELOAD_TRACE=FILE. */

extern int is_tracing;

void trace_begin(void);                                /* at the program's start */
void trace_join(struct link *link);                    /* gives the client its number */
void trace_forked(void);                               /* in the child of a fork */
void trace_line(struct link *link, const char *line);  /* before it is sent; locks the trace */
void trace_settle(struct link *link, const char *line);    /* after it is sent; unlocks the trace */
                                                           /* if it waits */
void trace_answer(struct link *link, const char *line, const char *word);
void trace_die(struct link *link);       /* writes that the client dies; locks the trace */
void trace_unlock(int trace);

/* thread.c: the ends of threads and processes, and fork. */

extern const char *socket_path;
extern pid_t my_pid;

void begin(void);                        /* reads the environment; once */
void thread_connected(void);             /* from now on the thread's end is seen */
void lock_slots(void);                   /* no fork between this and unlock_slots */
void unlock_slots(void);
pid_t my_tid(void);
int is_my_copy(pid_t pid, pid_t tid);    /* whether that thread is this one, or forked it */

/* clock.c: deadlines, as the server reads them. */

struct deadline {
    const char *clock;
    long long seconds;
    long nanoseconds;
};

/* Returns 0, or EINVAL for a clock that the server doesn't have. */
int deadline_of(struct deadline *deadline, clockid_t clock, const struct timespec *at);

/* names.c: which object of the server a pthread object is. */

enum class { MUTEX = 1, RWLOCK, COND, BARRIER };

/* What the library keeps in a pthread object. The kind of a mutex is where the C library's static
 * initialisers have it; all else of those is 0. */
struct body {
    _Atomic uint32_t state;     /* 0: a static initialiser. Else a mark, the class and the phase */
    _Atomic uint32_t serial;
    _Atomic uint64_t place;     /* of a private object its address, of a shared one a hash */
    int32_t kind;
    _Atomic uint32_t pid;       /* 0: shared */
    _Atomic uint32_t owner;     /* of a private mutex or write lock: a thread, for a child's copy */
    _Atomic uint32_t count;     /* how often it has locked; of a barrier its count */
};

enum { ROBUST = 0x100, MONOTONIC = 1 };     /* in `kind`: of a mutex, and of a condition */
enum { NAME = 32 };                         /* room for a name, which has at most 30 bytes */

/* Makes an object. Returns 0 or an errno. */
int object_init(void *object, enum class class, int kind, unsigned count);

/* Destroys an object. Returns 0 or an errno. */
int object_destroy(void *object, enum class class);

/* Writes the name of an object, which is made now if it has a static initialiser, or belongs to
 * the process that forked this one. Returns 0, or EINVAL if it is no such object. */
int object_find(void *object, enum class class, char name[NAME]);

/* Notes that this thread has locked a mutex or a write lock, if its answer says so. Returns the
 * answer. */
int object_locked(void *object, int answer);

/* Notes that this thread unlocks. Returns whether it was noted as the owner. */
int object_unlocked(void *object);

#endif
