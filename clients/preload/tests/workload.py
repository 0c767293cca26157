#!/usr/bin/env python3
"""A workload for the locks, conditions and barriers of `threading`, with forks and deaths.

It prints the same each time. CPython's interpreter lock is a mutex and a condition of the C
library.
"""
import collections
import concurrent.futures
import hashlib
import os
import signal
import threading

THREADS = 4


def run_threads(*targets):
    threads = [threading.Thread(target=target) for target in targets]
    for thread in threads:
        thread.start()
    for thread in threads:
        thread.join()


def count_with_locks(rounds=300):
    lock, again, counts = threading.Lock(), threading.RLock(), [0, 0]

    def count():
        for _ in range(rounds):
            with lock:
                counts[0] += 1
            with again, again:
                counts[1] += 1

    run_threads(*[count] * THREADS)
    return counts


def pass_with_conditions(items=300, room=4):
    held, taken = collections.deque(), []
    lock = threading.Lock()
    is_not_full, is_not_empty = threading.Condition(lock), threading.Condition(lock)

    def produce():
        for item in range(items):
            with is_not_full:
                is_not_full.wait_for(lambda: len(held) < room)
                held.append(item)
                is_not_empty.notify()

    def consume():
        for _ in range(items):
            with is_not_empty:
                is_not_empty.wait_for(lambda: held)
                taken.append(held.popleft())
                is_not_full.notify()

    run_threads(produce, consume, produce, consume)
    return len(taken), sum(taken)


def meet_at_barriers(rounds=20):
    barrier, firsts = threading.Barrier(THREADS), []

    def meet():
        for number in range(rounds):
            if barrier.wait() == 0:
                firsts.append(number)

    run_threads(*[meet] * THREADS)
    return firsts == list(range(rounds))


def hash_in_a_pool(blocks=60):
    def digest(number):
        return hashlib.sha256(bytes([number]) * 100_000).digest()

    with concurrent.futures.ThreadPoolExecutor(THREADS) as pool:
        return hashlib.sha256(b"".join(pool.map(digest, range(blocks)))).hexdigest()


def wait_in_vain():
    condition = threading.Condition()
    with condition:
        return condition.wait(0.02), threading.Event().wait(0.02)


def child_status(work):
    """Runs a child while a thread of this process holds a lock, and returns its status."""
    is_done = threading.Event()
    holder = threading.Thread(target=is_done.wait)
    holder.start()
    child = os.fork()
    if child == 0:
        os._exit(work())
    status = os.waitstatus_to_exitcode(os.waitpid(child, 0)[1])
    is_done.set()
    holder.join()
    return status


def use_threads():
    return 42 if count_with_locks(20) == [20 * THREADS, 20 * THREADS] else 1


def be_killed():
    threading.Thread(target=threading.Event().wait).start()
    os.kill(os.getpid(), signal.SIGKILL)


print("counted:", count_with_locks())
print("passed on:", pass_with_conditions())
print("met at each barrier:", meet_at_barriers())
print("hashed:", hash_in_a_pool())
print("waited in vain:", wait_in_vain())
print("children:", [child_status(work) for work in (use_threads, be_killed, use_threads)])
