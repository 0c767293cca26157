/* Which object of the server a pthread object is: its body says so, and no call looks it up.
 *
 *     s<hash of device, inode and offset>.<serial>    in a shared mapping
 *     p<pid>.<address>.<serial>                       elsewhere; a forked child makes its own copy
 *
 * Only the making of an object reads /proc/self/maps.
 */
#include "preload.h"

#include <fcntl.h>
#include <stdio.h>
#include <stdlib.h>
#include <string.h>
#include <sys/syscall.h>
#include <unistd.h>

_Static_assert(sizeof(struct body) == 32 && sizeof(pthread_mutex_t) >= 32
                   && sizeof(pthread_rwlock_t) >= 32 && sizeof(pthread_cond_t) >= 32
                   && sizeof(pthread_barrier_t) >= 32,
               "a body fits in each object");
_Static_assert(offsetof(struct body, kind) == offsetof(pthread_mutex_t, __data.__kind),
               "a mutex has its kind where the C library's initialisers have it");

enum phase { MAKING = 1, READY, GONE };
#define STATE(class, phase) ((uint32_t)(0x70740000 | (class) << 4 | (phase)))

static const char *const DESTROY[] = {
    [MUTEX] = "mutex-destroy", [RWLOCK] = "rwlock-destroy",
    [COND] = "cond-destroy",   [BARRIER] = "barrier-destroy",
};

struct identity {
    uint32_t pid, serial;
    uint64_t place;
};

static _Atomic uint32_t serials;

/* Writes a number. Returns the end of its digits. */
static char *put_number(char *at, uint64_t number, unsigned base)
{
    char digits[24];
    int count = 0;
    do
        digits[count++] = "0123456789abcdef"[number % base];
    while ((number /= base) != 0);
    while (count > 0)
        *at++ = digits[--count];
    return at;
}

/* Each call writes a name, so this does without the half microsecond of snprintf. */
static void name_of(const struct identity *is, char name[NAME])
{
    *name++ = is->pid == 0 ? 's' : 'p';
    if (is->pid != 0) {
        name = put_number(name, is->pid, 10);
        *name++ = '.';
    }
    name = put_number(name, is->place, 16);
    *name++ = '.';
    *put_number(name, is->serial, 16) = '\0';
}

static struct identity identity_of(struct body *body)
{
    uint32_t pid = atomic_load_explicit(&body->pid, memory_order_acquire);
    return (struct identity){pid, atomic_load(&body->serial), atomic_load(&body->place)};
}

struct mapping {
    unsigned long long low, high, offset, inode;
    unsigned major, minor;
    char mode[8];
};

/* FNV-1a of what makes a place in a shared mapping the same place in each process. */
static uint64_t hash_of(const struct mapping *map, uintptr_t at)
{
    uint64_t words[] = {map->major, map->minor, map->inode, map->offset + (at - map->low)};
    const unsigned char *bytes = (const unsigned char *)words;
    uint64_t hash = 14695981039346656037u;
    for (size_t i = 0; i < sizeof words; i++)
        hash = (hash ^ bytes[i]) * 1099511628211u;
    return hash;
}

/* Reads a line of /proc/self/maps. Returns whether the address is in its mapping. */
static int is_mapping_of(const char *line, uintptr_t at, struct mapping *map)
{
    return sscanf(line, "%llx-%llx %7s %llx %x:%x %llu", &map->low, &map->high, map->mode,
                  &map->offset, &map->major, &map->minor, &map->inode) == 7
           && map->low <= at && at < map->high;
}

/* Finds the mapping of an address. Returns whether there is one. */
static int find_mapping(uintptr_t at, struct mapping *map)
{
    char text[4096];
    size_t length = 0;
    int is_found = 0;
    int maps = (int)syscall(SYS_openat, AT_FDCWD, "/proc/self/maps", O_RDONLY | O_CLOEXEC);
    while (maps >= 0 && !is_found) {
        long count = syscall(SYS_read, maps, text + length, sizeof text - 1 - length);
        if (count <= 0)
            break;
        length += (size_t)count;
        char *line = text, *newline;
        while (!is_found && (newline = memchr(line, '\n', length)) != NULL) {
            *newline = '\0';
            is_found = is_mapping_of(line, at, map);
            length -= (size_t)(newline + 1 - line);
            line = newline + 1;
        }
        if (length == sizeof text - 1)
            length = 0;                 /* the line of a long path: its start has been read */
        memmove(text, line, length);
    }
    if (maps >= 0)
        syscall(SYS_close, maps);
    return is_found;
}

/* Returns the identity of a new object at this address. */
static struct identity new_identity(const void *object)
{
    struct mapping map;
    uintptr_t at = (uintptr_t)object;
    if (find_mapping(at, &map) && map.mode[3] == 's')
        return (struct identity){.pid = 0, .place = hash_of(&map, at)};
    return (struct identity){(uint32_t)my_pid, atomic_fetch_add(&serials, 1), at};
}

static int ask_init(enum class class, int kind, unsigned count, const char *name)
{
    static const char *const KINDS[] = {"normal", "recursive", "errorcheck", "normal"};
    switch (class) {
    case MUTEX:
        return ask("mutex-init %s %s %s", name, KINDS[kind & 3],
                   (kind & ROBUST) != 0 ? "robust" : "stalled");
    case RWLOCK:
        return ask("rwlock-init %s", name);
    case COND:
        return ask("cond-init %s", name);
    default:
        return ask("barrier-init %s %u", name, count);
    }
}

/* Makes the server's object under the first name that is free. Returns 0 or an errno. */
static int make(struct identity *is, enum class class, int kind, unsigned count)
{
    char name[NAME];
    for (;;) {
        name_of(is, name);
        int answer = ask_init(class, kind, count, name);
        if (answer != EBUSY)
            return answer;
        is->serial = is->pid == 0 ? is->serial + 1 : atomic_fetch_add(&serials, 1);
    }
}

/* Writes the identity into a body. The pid comes last: with it the rest can be read. */
static void publish(struct body *body, const struct identity *is, enum class class)
{
    atomic_store(&body->serial, is->serial);
    atomic_store(&body->place, is->place);
    atomic_store(&body->pid, is->pid);
    atomic_store(&body->state, STATE(class, READY));
}

/* Destroys the server's object of a body whose memory has a new use. */
static void forget(struct body *body, const struct identity *next)
{
    char name[NAME];
    struct identity old = identity_of(body);
    uint32_t state = atomic_load(&body->state);
    uint32_t class = state >> 4 & 15;
    int is_ready = class >= MUTEX && class <= BARRIER && state == STATE(class, READY);
    if (is_ready && old.pid == next->pid && old.place == next->place) {
        name_of(&old, name);
        ask("%s %s", DESTROY[class], name);
    }
}

int object_init(void *object, enum class class, int kind, unsigned count)
{
    begin();
    struct body *body = object;
    struct identity is = new_identity(object);
    forget(body, &is);
    atomic_store(&body->state, STATE(class, MAKING));
    body->kind = kind;
    atomic_store(&body->owner, 0);
    atomic_store(&body->count, count);
    int answer = make(&is, class, kind, count);
    if (answer == 0)
        publish(body, &is, class);
    else
        atomic_store(&body->state, STATE(class, GONE));
    return answer;
}

/* Locks a child's copy for a thread that is not in the child: nobody ever unlocks it. */
static void lock_for_ever(const char *word, const char *name)
{
    struct link other;
    link_join(&other, 1);
    link_ask(&other, "%s %s", word, name);
    link_leave(&other);
}

/* Locks the copy of a private object that the parent's thread `owner` had locked. */
static void copy_owner(struct body *body, enum class class, pid_t parent, const char *name)
{
    const char *word = class == MUTEX ? "lock" : "wrlock";
    pid_t owner = (pid_t)atomic_load(&body->owner);
    if ((class != MUTEX && class != RWLOCK) || owner == 0)
        return;
    if (!is_my_copy(parent, owner)) {
        lock_for_ever(word, name);
        return;
    }
    for (uint32_t i = 0; i < atomic_load(&body->count); i++)
        ask("%s %s", word, name);
    atomic_store(&body->owner, (uint32_t)my_tid());
}

/* Makes the object of a static initialiser, or a child's copy of its parent's. The state is
 * MAKING. */
static void make_now(struct body *body, enum class class, uint32_t state)
{
    char name[NAME];
    struct identity old = identity_of(body);
    if (state != 0 && (old.pid == 0 || old.pid == (uint32_t)my_pid)) {
        atomic_store(&body->state, STATE(class, READY));
        return;                         /* another thread has made it since */
    }
    if (state == 0) {
        atomic_store(&body->owner, 0);
        atomic_store(&body->count, 0);
    }
    struct identity is = new_identity(body);
    int answer = make(&is, class, body->kind, atomic_load(&body->count));
    name_of(&is, name);
    if (answer != 0)
        give_up("LIMIT: no room at the server, which holds 4,096 objects", name);
    if (state != 0)
        copy_owner(body, class, (pid_t)old.pid, name);
    publish(body, &is, class);
}

/* Waits a little for the thread that makes an object. */
static void wait_for_maker(unsigned tries)
{
    struct timespec pause = {.tv_nsec = 100000};
    if (tries > 100000)
        give_up("an object was never made ready", "its maker has ended");
    syscall(SYS_nanosleep, &pause, NULL);
}

int object_find(void *object, enum class class, char name[NAME])
{
    struct body *body = object;
    for (unsigned tries = 0;; tries++) {
        uint32_t state = atomic_load(&body->state);
        struct identity is = identity_of(body);
        int is_ready = state == STATE(class, READY);
        if (is_ready && (is.pid == 0 || is.pid == (uint32_t)my_pid)) {
            name_of(&is, name);
            return 0;
        }
        if (is_ready || (state == 0 && class != BARRIER)) {
            begin();
            if (atomic_compare_exchange_strong(&body->state, &state, STATE(class, MAKING)))
                make_now(body, class, state);
        } else if (state == STATE(class, MAKING)) {
            wait_for_maker(tries);
        } else {
            return EINVAL;
        }
    }
}

int object_destroy(void *object, enum class class)
{
    struct body *body = object;
    char name[NAME];
    if (class != BARRIER && atomic_load(&body->state) == 0) {
        atomic_store(&body->state, STATE(class, GONE));
        return 0;                       /* it was never used: the server has none */
    }
    int answer = object_find(object, class, name);
    if (answer == 0)
        answer = ask("%s %s", DESTROY[class], name);
    if (answer == 0)
        atomic_store(&body->state, STATE(class, GONE));
    return answer;
}

int object_locked(void *object, int answer)
{
    struct body *body = object;
    uint32_t mine = (uint32_t)my_tid();
    if ((answer != 0 && answer != EOWNERDEAD) || atomic_load(&body->pid) == 0)
        return answer;
    uint32_t count = atomic_load(&body->owner) == mine ? atomic_load(&body->count) : 0;
    atomic_store(&body->owner, mine);
    atomic_store(&body->count, count + 1);
    return answer;
}

int object_unlocked(void *object)
{
    struct body *body = object;
    uint32_t count = atomic_load(&body->count);
    if (atomic_load(&body->owner) != (uint32_t)my_tid() || count == 0)
        return 0;
    atomic_store(&body->count, count - 1);
    if (count == 1)
        atomic_store(&body->owner, 0);
    return 1;
}
